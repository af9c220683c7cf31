//! Updates: how long a call takes, by one thread and by four at once.
use crate::documents::sample_lines;
use crate::peer::Peer;
use crate::{report, scenes};
use std::hint::black_box;
use std::thread;
use std::time::Instant;

// As in the bench.
const ROUNDS: u64 = 51;
const THREADS: u64 = 4;
/// The calls of a turn of `inc` and `set`.
const STEPS: u64 = 200_000;
/// All turns of a scene: one in each round alone, and four in each round of four threads.
const TURNS: u64 = ROUNDS * (1 + THREADS);

/// The nanoseconds of the least round.
fn least(round: impl Fn()) -> u128 {
    let times = (0..ROUNDS).map(|_| {
        let start = Instant::now();
        round();
        start.elapsed().as_nanos()
    });
    times.min().unwrap_or(0)
}

/// Four turns at once: three by new threads, and one by this one.
fn together(turn: &(impl Fn() + Sync)) {
    thread::scope(|scope| {
        for _ in 1..THREADS {
            scope.spawn(turn);
        }
        turn();
    });
}

/// The nanoseconds of the least turn alone, and of the least four at once.
fn times(turn: impl Fn() + Sync) -> (u128, u128) {
    (least(&turn), least(|| together(&turn)))
}

/// The sum of the samples of a registry whose names have an ending.
fn sum<P: Peer>(registry: &P::Registry, ending: &str) -> u64 {
    let mut document = String::new();
    P::write(registry, &mut document);
    let samples = sample_lines(&document).map(|line| line.rsplit_once(' ').unwrap());
    samples
        .filter(|(series, _)| series.split('{').next().unwrap().ends_with(ending))
        .map(|(_, value)| value.parse::<u64>().unwrap())
        .sum()
}

fn inc<P: Peer>() {
    let (registry, inc) = P::inc();
    let inc = black_box(&inc);
    let (one, four) = times(|| {
        for _ in 0..STEPS {
            inc();
        }
    });
    report::<P>("inc", 1, "call", one, STEPS);
    report::<P>("inc", THREADS, "call", four, THREADS * STEPS);
    assert_eq!(sum::<P>(&registry, "_total"), TURNS * STEPS);
}

fn set<P: Peer>() {
    let (registry, set) = P::set();
    let set = black_box(&set);
    let (one, four) = times(|| {
        for step in 1..=STEPS {
            set(step as i64);
        }
    });
    report::<P>("set", 1, "call", one, STEPS);
    report::<P>("set", THREADS, "call", four, THREADS * STEPS);
    assert_eq!(sum::<P>(&registry, ""), STEPS);
}

fn observe<P: Peer>(scene: &str, bounds: u64, values: &[f64]) {
    let (registry, observe) = P::observe(scenes::bounds(bounds));
    let observe = black_box(&observe);
    let steps = values.len() as u64;
    let (one, four) = times(|| {
        for value in values {
            observe(*value);
        }
    });
    report::<P>(scene, bounds, "call", one, steps);
    report::<P>(scene, bounds, "call_by_4", four, THREADS * steps);
    assert_eq!(sum::<P>(&registry, "_count"), TURNS * steps);
}

/// The members that are looked up, in an order that no table has.
const KEYS: u64 = 1_000;

fn keys() -> impl Iterator<Item = u64> {
    (0..KEYS).map(|step| step * 619 % KEYS)
}

/// Looks keys up in a family of a registry.
fn hits<P: Peer, K: Sync>(
    scene: &str,
    (registry, look_up): (P::Registry, impl Fn(&K) + Sync),
    keys: &[K],
) {
    const PASSES: u64 = 20;
    let look_up = black_box(&look_up);
    let turn = || {
        for _ in 0..PASSES {
            keys.iter().for_each(look_up);
        }
    };
    // One turn unmeasured, which makes the members.
    turn();
    let (one, four) = times(turn);
    report::<P>(scene, KEYS, "call", one, PASSES * KEYS);
    report::<P>(scene, KEYS, "call_by_4", four, THREADS * PASSES * KEYS);
    assert_eq!(sum::<P>(&registry, "_total"), (1 + TURNS) * PASSES * KEYS);
}

pub fn measure<P: Peer>() {
    inc::<P>();
    set::<P>();
    let (values, same) = (scenes::values(), scenes::same_values());
    observe::<P>("observe12", 12, &values);
    observe::<P>("observe12_same", 12, &same);
    observe::<P>("observe256", 256, &values);
    observe::<P>("observe256_same", 256, &same);
    let labels: Vec<_> = keys().map(P::labels).collect();
    hits::<P, _>("lookup", P::lookup(), &labels);
    let values: Vec<_> = keys().map(scenes::member_values).collect();
    hits::<P, _>("values", P::values(), &values);
}
