//! What a crate is asked to do.

/// A crate that is measured.
pub trait Peer {
    const NAME: &'static str;
    type Registry;
    /// The labels of a member, as the crate looks it up.
    type Labels: Sync;

    /// A registry with a family of so many counters by two labels.
    fn counters(members: u64) -> Self::Registry;
    /// The same family in a registry with a namespace and two labels of its own.
    fn labeled(members: u64) -> Self::Registry;
    /// A registry with a family of so many histograms by two labels.
    fn histograms(members: u64) -> Self::Registry;
    /// A registry with a namespace, two labels of its own, and so many gauges.
    fn gauges(members: u64) -> Self::Registry;
    /// Appends the document of a scrape.
    fn write(registry: &Self::Registry, document: &mut String);

    /// A registry with a counter, and what adds one to it.
    fn inc() -> (Self::Registry, impl Fn() + Sync);
    /// A registry with a gauge, and what sets it.
    fn set() -> (Self::Registry, impl Fn(i64) + Sync);
    /// A registry with a histogram of these bounds, and what observes a value.
    fn observe(bounds: Vec<f64>) -> (Self::Registry, impl Fn(f64) + Sync);
    /// A registry with a family of counters by two labels, and what gets or makes a member and
    /// adds one to it.
    fn lookup() -> (Self::Registry, impl Fn(&Self::Labels) + Sync);
    fn labels(member: u64) -> Self::Labels;

    /// A registry with a family of so many counters by two labels whose names only the program knows.
    fn named(members: u64) -> Self::Registry;
    /// A registry with a family of counters by two labels, and what gets or makes the member of two
    /// values, which are texts that the caller has, and adds one to it.
    fn values() -> (Self::Registry, impl Fn(&[String; 2]) + Sync);
}
