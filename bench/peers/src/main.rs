//! `peers [MEMBERS] [--show | --series CRATE]`: how long other crates take for the scenes of the bench.
//!
//! A line has the crate, the scene, its members, what was measured, and nanoseconds of the least
//! round: `encode` for a sample line of a document, `call` for a call by one thread, `call_by_4`
//! for a call by four threads at once. The members of `inc` and `set` are threads, those of
//! `observe12` and the like bounds; `_same` scenes observe one value over and over.
//!
//! With `--series` one crate only makes so many members: `made` is for one, and `bytes` are those of
//! memory that it has.
//!
//! As in the bench, the time of four threads is that until the last has ended, over all their calls.
mod client;
mod documents;
mod peer;
mod prometheus;
mod scenes;
mod series;
mod updates;

use peer::Peer;

/// What the command line asks for.
#[derive(Clone, Copy)]
struct Wish {
    members: u64,
    show: bool,
}

fn report<P: Peer>(scene: &str, members: u64, word: &str, nanos: u128, steps: u64) {
    let tenths = nanos * 10 / u128::from(steps.max(1));
    let (whole, tenth) = (tenths / 10, tenths % 10);
    println!("{} {scene} {members} {word} {whole}.{tenth}", P::NAME);
}

fn measure<P: Peer>(wish: Wish) {
    documents::measure::<P>(wish);
    updates::measure::<P>();
}

fn main() {
    const USAGE: &str = "peers [MEMBERS] [--show | --series CRATE]";
    let mut wish = Wish {
        members: 1_000,
        show: false,
    };
    let mut series = None;
    let mut words = std::env::args().skip(1);
    while let Some(word) = words.next() {
        match word.as_str() {
            "--show" => wish.show = true,
            "--series" => series = Some(words.next().expect(USAGE)),
            _ => wish.members = word.parse().expect(USAGE),
        }
    }
    match series.as_deref() {
        None => {
            measure::<client::Client>(wish);
            measure::<prometheus::Prometheus>(wish);
        }
        Some("prometheus-client") => series::measure::<client::Client>(wish.members),
        Some("prometheus") => series::measure::<prometheus::Prometheus>(wish.members),
        Some(_) => panic!("{USAGE}"),
    }
}
