//! The scenes of the bench: names, labels, values, bounds and observations.

/// The name of a family, without a suffix.
pub const FAMILY: &str = "http_requests";
pub const HELP: &str = "Total HTTP requests";

/// What comes before the names of `labeled` and `gauges`.
pub const NAMESPACE: &str = "bench";
/// The labels of their registries.
pub const CONST_LABELS: [(&str, &str); 2] = [("env", "prod"), ("region", "eu-west-1")];

/// The name of the gauge of a member, without the namespace.
pub fn gauge_name(member: u64) -> String {
    format!("queue_{member}_length")
}

/// One of four methods.
pub fn method(member: u64) -> &'static str {
    ["GET", "POST", "PUT", "DELETE"][(member % 4) as usize]
}

/// A path of its own for each member.
pub fn path(member: u64) -> String {
    format!("/api/v1/items/{member}")
}

/// The values of a member.
pub fn member_values(member: u64) -> [String; 2] {
    [method(member).to_string(), path(member)]
}

/// The values of a member of together so many bytes, at least 15: one of four methods, and a path of
/// its own.
pub fn long_values(member: u64, bytes: usize) -> [String; 2] {
    let method = method(member).to_string();
    let digits = bytes - method.len() - "/items/".len();
    let path = format!("/items/{member:0>digits$}");
    [method, path]
}

/// A value below 1,000,003 for a member.
pub fn value(member: u64) -> u64 {
    member.wrapping_mul(2_654_435_761) % 1_000_003
}

/// The finite bounds: 12 that double from 0.005 on, or so many of 0.08 each. The crates add +Inf.
pub fn bounds(count: u64) -> Vec<f64> {
    let millionths = |index| match count {
        12 => 5_000u64 << index,
        _ => 80_000 * (index + 1),
    };
    (0..count)
        .map(|index| millionths(index) as f64 / 1e6)
        .collect()
}

/// The eight observations of a member, from 0 to 20.25, in eighths.
pub fn observations(member: u64) -> impl Iterator<Item = f64> {
    (member * 8..member * 8 + 8).map(|step| {
        let eighths = (step % 1024).wrapping_mul(2_654_435_761) % 163;
        eighths as f64 / 8.0
    })
}

/// How many values are observed in a turn.
const VALUES: usize = 20_000;

/// Values from 0 to 20.98 in an order of their own, of which few come twice.
pub fn values() -> Vec<f64> {
    let next = |number: &u64| {
        let product = number.wrapping_mul(6_364_136_223_846_793_005);
        Some(product.wrapping_add(1_442_695_040_888_963_407))
    };
    let scrambled = std::iter::successors(Some(1), next).skip(1);
    let millionths = scrambled.map(|number| (number >> 43) * 10);
    millionths
        .take(VALUES)
        .map(|value| value as f64 / 1e6)
        .collect()
}

/// As many times one value, which is in the middle of these.
pub fn same_values() -> Vec<f64> {
    vec![10.0; VALUES]
}
