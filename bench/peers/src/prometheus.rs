//! The crate `prometheus`.
use crate::peer::Peer;
use crate::scenes::{self, CONST_LABELS, FAMILY, HELP, NAMESPACE};
use ::prometheus::core::Collector;
use ::prometheus::{Histogram, HistogramOpts, HistogramVec, IntCounter, IntCounterVec, IntGauge};
use ::prometheus::{Opts, Registry, TextEncoder};

pub struct Prometheus;

const LABELS: [&str; 2] = ["method", "path"];

fn labeled_registry() -> Registry {
    let labels = CONST_LABELS.map(|(name, value)| (name.into(), value.into()));
    Registry::new_custom(Some(NAMESPACE.into()), Some(labels.into())).unwrap()
}

/// The registry with a metric too.
fn with(registry: Registry, metric: impl Collector + 'static) -> Registry {
    registry.register(Box::new(metric)).unwrap();
    registry
}

/// The crate adds no suffix to the names of counters.
fn counter_opts() -> Opts {
    Opts::new(format!("{FAMILY}_total"), HELP)
}

fn counter_family(members: u64) -> IntCounterVec {
    let family = IntCounterVec::new(counter_opts(), &LABELS).unwrap();
    for member in 0..members {
        let labels = [scenes::method(member), &scenes::path(member)];
        let counter = family.with_label_values(&labels);
        counter.inc_by(scenes::value(member));
    }
    family
}

impl Peer for Prometheus {
    const NAME: &'static str = "prometheus";
    type Registry = Registry;
    type Labels = [String; 2];

    fn counters(members: u64) -> Registry {
        with(Registry::new(), counter_family(members))
    }

    fn labeled(members: u64) -> Registry {
        with(labeled_registry(), counter_family(members))
    }

    fn histograms(members: u64) -> Registry {
        let opts = HistogramOpts::new(FAMILY, HELP).buckets(scenes::bounds(12));
        let family = HistogramVec::new(opts, &LABELS).unwrap();
        for member in 0..members {
            let labels = [scenes::method(member), &scenes::path(member)];
            let histogram = family.with_label_values(&labels);
            scenes::observations(member).for_each(|seen| histogram.observe(seen));
        }
        with(Registry::new(), family)
    }

    fn gauges(members: u64) -> Registry {
        let registry = labeled_registry();
        for member in 0..members {
            let gauge = IntGauge::new(scenes::gauge_name(member), HELP).unwrap();
            gauge.set(scenes::value(member) as i64);
            registry.register(Box::new(gauge)).unwrap();
        }
        registry
    }

    // A scrape needs both: gathering, and writing what was gathered.
    fn write(registry: &Registry, document: &mut String) {
        let families = registry.gather();
        TextEncoder::new().encode_utf8(&families, document).unwrap();
    }

    fn inc() -> (Registry, impl Fn() + Sync) {
        let counter = IntCounter::with_opts(counter_opts()).unwrap();
        let registry = with(Registry::new(), counter.clone());
        (registry, move || counter.inc())
    }

    fn set() -> (Registry, impl Fn(i64) + Sync) {
        let gauge = IntGauge::new(FAMILY, HELP).unwrap();
        let registry = with(Registry::new(), gauge.clone());
        (registry, move |value| gauge.set(value))
    }

    fn observe(bounds: Vec<f64>) -> (Registry, impl Fn(f64) + Sync) {
        let opts = HistogramOpts::new(FAMILY, HELP).buckets(bounds);
        let histogram = Histogram::with_opts(opts).unwrap();
        let registry = with(Registry::new(), histogram.clone());
        (registry, move |value| histogram.observe(value))
    }

    fn lookup() -> (Registry, impl Fn(&[String; 2]) + Sync) {
        let family = IntCounterVec::new(counter_opts(), &LABELS).unwrap();
        let registry = with(Registry::new(), family.clone());
        let look_up = move |[method, path]: &[String; 2]| {
            family.with_label_values(&[method, path]).inc();
        };
        (registry, look_up)
    }

    fn labels(member: u64) -> [String; 2] {
        scenes::member_values(member)
    }

    // All its families are of this kind.
    fn named(members: u64) -> Registry {
        Self::counters(members)
    }

    fn values() -> (Registry, impl Fn(&[String; 2]) + Sync) {
        Self::lookup()
    }
}
