//! The crate `prometheus-client`.
use crate::peer::Peer;
use crate::scenes::{self, CONST_LABELS, FAMILY, HELP, NAMESPACE};
use prometheus_client::encoding::text::encode;
use prometheus_client::encoding::EncodeLabelSet;
use prometheus_client::metrics::counter::Counter;
use prometheus_client::metrics::family::Family;
use prometheus_client::metrics::gauge::Gauge;
use prometheus_client::metrics::histogram::Histogram;
use prometheus_client::registry::{Metric, Registry};

pub struct Client;

/// How a request was made, and of what.
#[derive(Clone, Debug, PartialEq, Eq, Hash, EncodeLabelSet)]
pub struct Request {
    method: String,
    path: String,
}

fn labeled_registry() -> Registry {
    let labels = CONST_LABELS.map(|(name, value)| (name.into(), value.into()));
    Registry::with_prefix_and_labels(NAMESPACE, labels.into_iter())
}

/// The registry with a metric too.
fn with(mut registry: Registry, metric: impl Metric) -> Registry {
    registry.register(FAMILY, HELP, metric);
    registry
}

fn counter_family(members: u64) -> Family<Request, Counter> {
    let family = Family::<Request, Counter>::default();
    for member in 0..members {
        let counter = family.get_or_create(&Client::labels(member));
        counter.inc_by(scenes::value(member));
    }
    family
}

/// Labels whose names only the program knows.
type Pairs = Vec<(String, String)>;

fn pairs(member: u64) -> Pairs {
    let [method, path] = scenes::member_values(member);
    vec![("method".to_string(), method), ("path".to_string(), path)]
}

impl Peer for Client {
    const NAME: &'static str = "prometheus-client";
    type Registry = Registry;
    type Labels = Request;

    fn counters(members: u64) -> Registry {
        with(Registry::default(), counter_family(members))
    }

    fn labeled(members: u64) -> Registry {
        with(labeled_registry(), counter_family(members))
    }

    fn histograms(members: u64) -> Registry {
        let new = || Histogram::new(scenes::bounds(12).into_iter());
        let family = Family::<Request, Histogram, _>::new_with_constructor(new);
        for member in 0..members {
            let histogram = family.get_or_create(&Self::labels(member));
            scenes::observations(member).for_each(|seen| histogram.observe(seen));
        }
        with(Registry::default(), family)
    }

    fn gauges(members: u64) -> Registry {
        let mut registry = labeled_registry();
        for member in 0..members {
            let gauge = Gauge::<i64>::default();
            gauge.set(scenes::value(member) as i64);
            registry.register(scenes::gauge_name(member), HELP, gauge);
        }
        registry
    }

    fn write(registry: &Registry, document: &mut String) {
        encode(document, registry).unwrap();
    }

    fn inc() -> (Registry, impl Fn() + Sync) {
        let counter = Counter::<u64>::default();
        let registry = with(Registry::default(), counter.clone());
        (registry, move || _ = counter.inc())
    }

    fn set() -> (Registry, impl Fn(i64) + Sync) {
        let gauge = Gauge::<i64>::default();
        let registry = with(Registry::default(), gauge.clone());
        (registry, move |value| _ = gauge.set(value))
    }

    fn observe(bounds: Vec<f64>) -> (Registry, impl Fn(f64) + Sync) {
        let histogram = Histogram::new(bounds.into_iter());
        let registry = with(Registry::default(), histogram.clone());
        (registry, move |value| histogram.observe(value))
    }

    fn lookup() -> (Registry, impl Fn(&Request) + Sync) {
        let family = Family::<Request, Counter>::default();
        let registry = with(Registry::default(), family.clone());
        (registry, move |labels| {
            _ = family.get_or_create(labels).inc()
        })
    }

    fn labels(member: u64) -> Request {
        let [method, path] = scenes::member_values(member);
        Request { method, path }
    }

    fn named(members: u64) -> Registry {
        let family = Family::<Pairs, Counter>::default();
        for member in 0..members {
            let counter = family.get_or_create(&pairs(member));
            counter.inc_by(scenes::value(member));
        }
        with(Registry::default(), family)
    }

    // A label set owns its texts: whoever has others copies them for each call.
    fn values() -> (Registry, impl Fn(&[String; 2]) + Sync) {
        let (registry, look_up) = Self::lookup();
        let copy_and_look_up = move |[method, path]: &[String; 2]| {
            look_up(&Request {
                method: method.clone(),
                path: path.clone(),
            })
        };
        (registry, copy_and_look_up)
    }
}
