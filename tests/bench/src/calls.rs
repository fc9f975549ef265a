//! Calls repeated from one record: the proved ones, and the same by the second implementation.

use crate::cards::for_calls;
use second::disk::{Ending, Flushed, Lent};
use second::limits::{ALLOWANCE, BLOCK_BYTES, JOURNAL_BYTES, QUEUE_BYTES};
use second::record::Record;
use std::time::Instant;

// `tests/bench/crate`; a slice is passed as its pointer and its length. Each returns how many of `times` calls were accepted.
extern "C" {
    fn bench_mount(
        card: *const u8,
        _: usize,
        queue: *const u8,
        _: usize,
        journal: *const u8,
        _: usize,
        times: usize,
    ) -> u64;
    fn bench_write(
        card: *const u8,
        _: usize,
        queue: *mut u8,
        _: usize,
        journal: *mut u8,
        _: usize,
        content: *const u8,
        _: usize,
        times: usize,
    ) -> u64;
    fn bench_read(
        card: *const u8,
        _: usize,
        queue: *mut u8,
        _: usize,
        journal: *mut u8,
        _: usize,
        view: usize,
        to: *mut u8,
        _: usize,
        times: usize,
    ) -> u64;
    fn bench_unit(
        card: *const u8,
        _: usize,
        queue: *mut u8,
        _: usize,
        journal: *mut u8,
        _: usize,
        content: *const u8,
        _: usize,
        times: usize,
    ) -> u64;
    fn bench_flush_write(
        card: *mut u8,
        _: usize,
        queue: *mut u8,
        _: usize,
        journal: *mut u8,
        _: usize,
        at: usize,
        times: usize,
    ) -> u64;
    fn bench_flush_lists(
        card: *mut u8,
        _: usize,
        queue: *const u8,
        _: usize,
        journal: *const u8,
        _: usize,
        at: usize,
        times: usize,
    ) -> u64;
}

/// What is written.
pub const CONTENT: [u8; BLOCK_BYTES] = [165; BLOCK_BYTES];

/// A call, with the record that it is repeated from.
#[derive(Clone, Copy, PartialEq, Eq)]
pub enum Call {
    Mount,
    /// Block 1 on stream 0.
    Write,
    /// Block 1 in a view; unit 1 is open, with a write of the block in its journal.
    Read(usize),
    /// Begin, a write of block 1, a block put behind it and written, End: five calls.
    Unit,
    /// A queue with one write: 260 stores.
    FlushWrite,
    /// A queue full of entries of two bytes: 32 times 3 stores.
    FlushLists,
}

impl Call {
    pub const ALL: [Call; 8] = [
        Call::Mount,
        Call::Write,
        Call::Read(0),
        Call::Read(5),
        Call::Read(1),
        Call::Unit,
        Call::FlushWrite,
        Call::FlushLists,
    ];

    pub fn name(self) -> &'static str {
        match self {
            Call::Mount => "mount",
            Call::Write => "write",
            Call::Read(0) => "read-committed",
            Call::Read(5) => "read-persistent",
            Call::Read(_) => "read-unit",
            Call::Unit => "unit",
            Call::FlushWrite => "flush-write",
            Call::FlushLists => "flush-lists",
        }
    }
}

/// What the calls are lent, but for the record.
#[derive(Clone, PartialEq, Eq)]
pub struct Disk {
    pub card: Vec<u8>,
    pub queue_data: Vec<u8>,
    pub journal_data: Vec<u8>,
    pub destination: Vec<u8>,
    /// Where the count byte of the last segment in use stands.
    pub tail: usize,
}

impl Disk {
    pub fn new(is_full: bool) -> Disk {
        let card = for_calls(is_full);
        Disk {
            tail: card.tail(),
            card: card.bytes,
            queue_data: vec![0; QUEUE_BYTES],
            journal_data: vec![0; JOURNAL_BYTES],
            destination: vec![0; BLOCK_BYTES],
        }
    }

    fn lend<'a>(&'a mut self, record: &'a mut Record) -> Lent<'a> {
        Lent {
            card: &mut self.card,
            queue_data: &mut self.queue_data,
            journal_data: &mut self.journal_data,
            record,
        }
    }
}

/// How many of `times` proved calls are accepted.
pub fn proved(call: Call, disk: &mut Disk, times: usize) -> u64 {
    let (card, cards) = (disk.card.as_mut_ptr(), disk.card.len());
    let (queue, queues) = (disk.queue_data.as_mut_ptr(), disk.queue_data.len());
    let (journal, journals) = (disk.journal_data.as_mut_ptr(), disk.journal_data.len());
    let (to, room) = (disk.destination.as_mut_ptr(), disk.destination.len());
    let content = CONTENT.as_ptr();
    // Sound: the pointers and the lengths are those of slices apart from each other that are lent for the call.
    unsafe {
        match call {
            Call::Mount => bench_mount(card, cards, queue, queues, journal, journals, times),
            Call::Write => bench_write(
                card,
                cards,
                queue,
                queues,
                journal,
                journals,
                content,
                BLOCK_BYTES,
                times,
            ),
            Call::Read(view) => bench_read(card, cards, queue, queues, journal, journals, view, to, room, times),
            Call::Unit => bench_unit(
                card,
                cards,
                queue,
                queues,
                journal,
                journals,
                content,
                BLOCK_BYTES,
                times,
            ),
            Call::FlushWrite => bench_flush_write(card, cards, queue, queues, journal, journals, disk.tail, times),
            Call::FlushLists => bench_flush_lists(card, cards, queue, queues, journal, journals, disk.tail, times),
        }
    }
}

/// The record that a call is repeated from, by the second implementation; None if a call on the way is refused.
fn start(call: Call, disk: &mut Disk) -> Option<Record> {
    let mut record = Record::FRESH;
    let mut lent = disk.lend(&mut record);
    lent.mount().ok()?;
    match call {
        Call::Read(_) => {
            lent.begin(1, 1).ok()?;
            lent.write(1, 1, &CONTENT, 0).ok()?;
        }
        Call::FlushWrite => lent.write(0, 1, &CONTENT, 0).ok()?,
        Call::FlushLists => {
            for _ in 0..16 {
                let list = lent.new_list(0).ok()?;
                lent.delete_list(0, list.into()).ok()?;
            }
        }
        Call::Mount | Call::Write | Call::Unit => (),
    }
    Some(record)
}

/// One call by the second implementation; None if it is refused.
fn call_second(call: Call, disk: &mut Disk, record: &mut Record) -> Option<()> {
    let Disk { tail, card, .. } = disk;
    let (tail, count) = (*tail, card[*tail]);
    match call {
        Call::Mount => disk.lend(record).mount().ok(),
        Call::Write => disk.lend(record).write(0, 1, &CONTENT, 0).ok(),
        Call::Read(view) => {
            let mut to = std::mem::take(&mut disk.destination);
            let answer = disk.lend(record).read(view as u64, 1, &mut to).ok();
            disk.destination = to;
            answer.map(|_race| ())
        }
        Call::Unit => {
            let mut lent = disk.lend(record);
            lent.begin(1, 1).ok()?;
            lent.write(1, 1, &CONTENT, 0).ok()?;
            let block = lent.new_block(1, 1, 1).ok()?;
            lent.write(1, block.into(), &CONTENT, 0).ok()?;
            lent.end(1).ok()
        }
        Call::FlushWrite | Call::FlushLists => {
            let Flushed { ending, .. } = disk.lend(record).flush(ALLOWANCE).ok()?;
            disk.card[tail] = count;
            (ending == Ending::Drained).then_some(())
        }
    }
}

/// How many of `times` calls the second implementation accepts.
#[no_mangle]
#[inline(never)]
pub extern "Rust" fn second_calls(call: Call, disk: &mut Disk, times: usize) -> u64 {
    let Some(record) = start(call, disk) else {
        return 0;
    };
    let accepted = (0..times).filter(|_| call_second(call, disk, &mut record.clone()).is_some());
    accepted.count() as u64
}

/// A way of making a call so many times; how many are accepted.
pub type Way = fn(Call, &mut Disk, usize) -> u64;

/// Both ways must accept every call, and leave the same bytes everywhere.
pub fn check(calls: &[Call], ways: [Way; 2]) {
    for is_full in [false, true] {
        for &call in calls {
            let disks = ways.map(|way| {
                let mut disk = Disk::new(is_full);
                assert_eq!(way(call, &mut disk, 3), 3, "{}", call.name());
                disk
            });
            assert!(disks[0] == disks[1], "{}: the bytes differ", call.name());
        }
    }
}

/// Rounds over all calls and cards.
const ROUNDS: usize = 200;

pub fn card_name(is_full: bool) -> &'static str {
    if is_full {
        "full"
    } else {
        "nearly empty"
    }
}

/// The best times of each call in two ways, in ns, on a card that is full or not. A batch is timed with one call and
/// with many: the difference is free of the set-up.
pub fn best_times(calls: &[Call], ways: [Way; 2]) -> Vec<(Call, bool, [f64; 2])> {
    check(calls, ways);
    let configurations = calls.iter().flat_map(|&call| [(call, false), (call, true)]);
    let mut disks: Vec<(Call, bool, Disk)> = configurations
        .map(|(call, is_full)| (call, is_full, Disk::new(is_full)))
        .collect();
    let mut best = vec![[[f64::INFINITY; 2]; 2]; disks.len()];
    for _ in 0..ROUNDS {
        for ((call, is_full, disk), best) in disks.iter_mut().zip(&mut best) {
            for (way, best) in ways.into_iter().zip(best) {
                for (times, best) in [1, 1 + many(*is_full)].into_iter().zip(best) {
                    let begun = Instant::now();
                    way(*call, disk, times);
                    *best = best.min(begun.elapsed().as_nanos() as f64);
                }
            }
        }
    }
    let times = |is_full, best: [[f64; 2]; 2]| best.map(|[one, all]| (all - one) / many(is_full) as f64);
    let measured = disks.into_iter().zip(best);
    measured
        .map(|((call, is_full, _), best)| (call, is_full, times(is_full, best)))
        .collect()
}

/// Prints the times of all calls, proved and by the second implementation.
pub fn times() {
    println!("| call | card | proved, ns | second, ns | proved / second |");
    println!("|---|---|---|---|---|");
    for (call, is_full, [proved, second]) in best_times(&Call::ALL, [proved, second_calls]) {
        println!(
            "| {} | {} | {proved:.0} | {second:.0} | {:.2} |",
            call.name(),
            card_name(is_full),
            proved / second
        );
    }
}

/// Calls in a batch, few enough for it to pass undisturbed now and then.
fn many(is_full: bool) -> usize {
    if is_full {
        4
    } else {
        256
    }
}
