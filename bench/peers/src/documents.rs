//! Documents: how long a scrape takes.
use crate::peer::Peer;
use crate::scenes::{self, CONST_LABELS, NAMESPACE};
use crate::{report, Wish};
use std::hint::black_box;
use std::time::Instant;

/// What a document is a document of.
#[derive(Clone, Copy)]
struct Scene {
    name: &'static str,
    /// The sample lines of a member.
    lines_each: u64,
    /// Whether the registry has a namespace and labels of its own.
    labeled: bool,
}

/// As in the bench, but no fewer than 200 rounds up to 1000 members.
fn rounds(members: u64, lines: u64) -> u64 {
    let fewest = if members <= 1_000 { 200 } else { 5 };
    (2_000_000 / lines.max(1)).clamp(fewest, 1_001)
}

/// The lines that aren't headings or comments.
pub fn sample_lines(document: &str) -> impl Iterator<Item = &str> {
    document.lines().filter(|line| !line.starts_with('#'))
}

/// Refuses a sample line without the namespace or the labels of its registry.
fn check_labeled(line: &str) {
    assert!(line.starts_with(&format!("{NAMESPACE}_")), "{line}");
    for (name, value) in CONST_LABELS {
        assert!(line.contains(&format!("{name}=\"{value}\"")), "{line}");
    }
}

/// Refuses a document that isn't one of so many members. Gives its sample lines.
fn check(scene: Scene, members: u64, document: &str) -> u64 {
    if scene.labeled {
        sample_lines(document).for_each(check_labeled);
    }
    let lines = sample_lines(document).count() as u64;
    assert_eq!(lines, members * scene.lines_each);
    lines
}

fn show<P: Peer>(scene: &str, lines: u64, document: &str) {
    let bytes = document.len();
    println!(
        "-- {} {scene}: {lines} sample lines, {bytes} bytes",
        P::NAME
    );
    for line in document.lines().take(6) {
        println!("   {line}");
    }
}

fn encode<P: Peer>(wish: Wish, scene: Scene, registry: &P::Registry) {
    let mut document = String::with_capacity(1 << 21);
    // One round unmeasured, which grows the buffer, and whose document is checked.
    P::write(registry, &mut document);
    let lines = check(scene, wish.members, &document);
    if wish.show {
        show::<P>(scene.name, lines, &document);
    }
    let mut least = u128::MAX;
    for _ in 0..rounds(wish.members, lines) {
        document.clear();
        let start = Instant::now();
        P::write(black_box(registry), &mut document);
        black_box(&document);
        least = least.min(start.elapsed().as_nanos());
    }
    report::<P>(scene.name, wish.members, "encode", least, lines);
}

pub fn measure<P: Peer>(wish: Wish) {
    let members = wish.members;
    let scene = |name, lines_each, labeled| Scene {
        name,
        lines_each,
        labeled,
    };
    encode::<P>(wish, scene("counters", 1, false), &P::counters(members));
    encode::<P>(wish, scene("named", 1, false), &P::named(members));
    encode::<P>(wish, scene("labeled", 1, true), &P::labeled(members));
    // The buckets, the one of +Inf, the sum and the count.
    let lines_each = scenes::bounds(12).len() as u64 + 3;
    let histograms = scene("histograms", lines_each, false);
    encode::<P>(wish, histograms, &P::histograms(members));
    encode::<P>(wish, scene("gauges", 1, true), &P::gauges(members));
}
