//! Times three ways over the summaries of full cards: the proved walk, the walk of the second implementation, and a
//! plain sum of the bytes that both read. Times the calls, proved and of the second implementation, and over the border
//! to C.
//!
//! `bench` prints the times. `bench --once WAY KIND SEGMENTS` goes one way once, for a tool that counts its
//! instructions, and prints the number of entries; `bench --long WAY kept|deleted` goes over a card with a list of all
//! blocks, which its last entry deletes or not. `bench --calls WAY CALL CARD TIMES` repeats a call.

mod border;
mod calls;
mod cards;

use border::border_calls;
use calls::{card_name, proved, second_calls, Call, Disk};
use cards::{full, long, Card, Kind};
use second::limits::BLOCKS;
use second::log::{count_at, segments, Log};
use std::hint::black_box;
use std::time::Instant;

extern "C" {
    // `tests/bench/crate`; a slice is passed as its pointer and its length.
    fn bench_walk(card: *const u8, length: usize) -> u64;
}

const SIZES: [usize; 3] = [1, 16, 64];
/// Every round times every card, so that each is timed all along the run.
const ROUNDS: usize = 40;
/// Batches of a card in a round, after one that warms the caches.
const BATCHES: usize = 10;
/// A timed batch walks as many segments as the largest card has.
const BATCH: usize = 64;

#[derive(Clone, Copy, PartialEq, Eq)]
enum Way {
    Proved,
    Second,
    Sum,
}

impl Way {
    const ALL: [Way; 3] = [Way::Proved, Way::Second, Way::Sum];

    fn name(self) -> &'static str {
        match self {
            Way::Proved => "proved",
            Way::Second => "second",
            Way::Sum => "sum",
        }
    }

    #[inline(always)]
    fn go(self, card: &Card) -> u64 {
        match self {
            // Sound: the pointer and the length are those of a slice that is lent for the call.
            Way::Proved => unsafe { bench_walk(card.bytes.as_ptr(), card.bytes.len()) },
            Way::Second => second_walk(&card.bytes),
            Way::Sum => byte_sum(card),
        }
    }

    /// The time of a batch, in ns an entry.
    fn batch(self, card: &Card, times: usize) -> f64 {
        let start = Instant::now();
        for _ in 0..times {
            black_box(self.go(black_box(card)));
        }
        start.elapsed().as_nanos() as f64 / (times * card.entries) as f64
    }
}

/// The answer of `bench_walk`, by the second implementation.
#[no_mangle]
#[inline(never)]
extern "Rust" fn second_walk(card: &[u8]) -> u64 {
    if segments(card).is_none() {
        return 1;
    }
    match Log::read(card) {
        Ok(log) => {
            black_box(&log);
            0
        }
        Err(_) => 2,
    }
}

/// The sum of the count bytes and of all bytes of entries.
#[no_mangle]
#[inline(never)]
extern "Rust" fn byte_sum(card: &Card) -> u64 {
    let summaries = card.ends.iter().enumerate();
    summaries
        .map(|(segment, &end)| {
            card.bytes[count_at(segment)..end]
                .iter()
                .map(|&byte| u64::from(byte))
                .sum::<u64>()
        })
        .sum()
}

/// Both walks must accept the card, refuse it with a byte more, and find a fault where the last entry is spoilt.
fn check(kind: Kind, card: &Card) {
    let mut other = card.clone();
    for way in [Way::Proved, Way::Second] {
        assert_eq!(way.go(card), 0, "{}, {}", way.name(), kind.name());
    }
    other.bytes.push(0);
    for way in [Way::Proved, Way::Second] {
        assert_eq!(way.go(&other), 1, "{}, {}", way.name(), kind.name());
    }
    other.bytes.pop();
    if let Some(&end) = card.ends.last() {
        other.bytes[end - 1] = 255;
    }
    for way in [Way::Proved, Way::Second] {
        assert_eq!(way.go(&other), 2, "{}, {}", way.name(), kind.name());
    }
}

fn times() {
    let configurations = Kind::ALL.into_iter().flat_map(|kind| SIZES.map(|size| (kind, size)));
    let cards: Vec<(Kind, usize, Card)> = configurations
        .map(|(kind, size)| (kind, size, full(kind, size)))
        .collect();
    let mut best = vec![[f64::INFINITY; 3]; cards.len()];
    for (kind, _, card) in &cards {
        check(*kind, card);
    }
    for _ in 0..ROUNDS {
        for ((_, size, card), best) in cards.iter().zip(&mut best) {
            for _ in 0..=BATCHES {
                for (way, best) in Way::ALL.into_iter().zip(best.iter_mut()) {
                    *best = best.min(way.batch(card, BATCH / size));
                }
            }
        }
    }
    println!("| full of | segments | entries | proved, ns an entry | second | sum | proved / second | proved / sum |");
    println!("|---|---|---|---|---|---|---|---|");
    for ((kind, size, card), [proved, second, sum]) in cards.iter().zip(best) {
        println!(
            "| {} | {size} | {} | {proved:.2} | {second:.2} | {sum:.2} | {:.2} | {:.0} |",
            kind.name(),
            card.entries,
            proved / second,
            proved / sum
        );
    }
}

/// The time of a list's deletion: a walk that meets it less one that ends before it.
fn deletion_times() {
    let cards = [long(false), long(true)];
    let mut best = [[f64::INFINITY; 2]; 2];
    for _ in 0..ROUNDS * BATCHES {
        for (way, best) in [Way::Proved, Way::Second].into_iter().zip(&mut best) {
            for (card, best) in cards.iter().zip(best) {
                *best = best.min(way.batch(card, BATCH) * card.entries as f64);
            }
        }
    }
    let [proved, second] = best.map(|[kept, deleted]| deleted - kept);
    let blocks = f64::from(BLOCKS);
    println!("| deleted | proved, ns | a block | second, ns | a block |");
    println!("|---|---|---|---|---|");
    println!(
        "| a list of {BLOCKS} blocks | {proved:.0} | {:.2} | {second:.0} | {:.2} |",
        proved / blocks,
        second / blocks
    );
}

fn way_named(name: &str) -> Option<Way> {
    Way::ALL.into_iter().find(|known| known.name() == name)
}

fn once_long(way: &str, end: &str) -> Option<()> {
    let card = match end {
        "kept" => long(false),
        "deleted" => long(true),
        _ => return None,
    };
    black_box(way_named(way)?.go(black_box(&card)));
    Some(())
}

fn once(way: &str, kind: &str, size: &str) -> Option<()> {
    let way = way_named(way)?;
    let kind = Kind::ALL.into_iter().find(|known| known.name() == kind)?;
    let card = full(kind, size.parse().ok()?);
    black_box(way.go(black_box(&card)));
    println!("{}", card.entries);
    Some(())
}

fn repeat(way: &str, call: &str, card: &str, times: &str) -> Option<()> {
    let call = Call::ALL.into_iter().find(|known| known.name() == call)?;
    let is_full = [false, true].into_iter().find(|&is_full| card_name(is_full) == card)?;
    let times = times.parse().ok()?;
    let mut disk = Disk::new(is_full);
    match way {
        "proved" => proved(call, &mut disk, times),
        "second" => second_calls(call, &mut disk, times),
        "border" => border_calls(call, &mut disk, times),
        _ => return None,
    };
    Some(())
}

fn main() {
    let words: Vec<String> = std::env::args().skip(1).collect();
    let words: Vec<&str> = words.iter().map(String::as_str).collect();
    match words[..] {
        [] => {
            times();
            println!();
            deletion_times();
            println!();
            calls::times();
            println!();
            border::times();
        }
        ["--once", way, kind, size] if once(way, kind, size).is_some() => (),
        ["--long", way, end] if once_long(way, end).is_some() => (),
        ["--calls", way, call, card, times] if repeat(way, call, card, times).is_some() => (),
        _ => {
            eprintln!("bench [--calls proved|second|border CALL CARD TIMES]");
            eprintln!("bench [--long proved|second kept|deleted]");
            eprintln!("bench [--once proved|second|sum lists|blocks|chains|long|writes|races|units SEGMENTS]");
            std::process::exit(2);
        }
    }
}
