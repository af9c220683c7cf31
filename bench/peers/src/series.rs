//! Series by two values of together 30 bytes: how long making one takes, and how much memory of the
//! process each has.
use crate::peer::Peer;
use crate::{report, scenes};
use std::fs;
use std::hint::black_box;
use std::time::Instant;

/// The bytes of a page.
const PAGE: u64 = 4_096;

/// The values of so many series are ready at once.
const BATCH: u64 = 1_000;

/// The bytes of the process that are in memory, as Linux counts them.
fn resident() -> u64 {
    let text = fs::read_to_string("/proc/self/statm").unwrap();
    let pages = text.split(' ').nth(1).unwrap();
    pages.parse::<u64>().unwrap() * PAGE
}

/// Makes so many members. Gives the nanoseconds, without those in which their values were made, and
/// the bytes that they take.
fn made<P: Peer>(members: u64) -> (u128, u64) {
    let before = resident();
    let (registry, make) = P::values();
    let make = black_box(&make);
    let mut nanos = 0;
    for first in (0..members).step_by(BATCH as usize) {
        let batch = first..members.min(first + BATCH);
        let values: Vec<_> = batch.map(|it| scenes::long_values(it, 30)).collect();
        let start = Instant::now();
        values.iter().for_each(make);
        nanos += start.elapsed().as_nanos();
    }
    let bytes = resident().saturating_sub(before);
    drop(registry);
    (nanos, bytes)
}

/// The time is that of the least of five rounds, the memory that of the first, when the process has
/// none to spare.
pub fn measure<P: Peer>(members: u64) {
    let (mut least, bytes) = made::<P>(members);
    for _ in 1..5 {
        least = least.min(made::<P>(members).0);
    }
    report::<P>("series", members, "made", least, members);
    report::<P>("series", members, "bytes", u128::from(bytes), members);
}
