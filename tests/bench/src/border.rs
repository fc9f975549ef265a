//! The calls made one by one through the functions that the library has for C, beside the same calls made inside it.

use crate::calls::{best_times, card_name, proved, Call, Disk, CONTENT};
use second::limits::ALLOWANCE;

// `crates/numgalis`; a slice is passed as its pointer and its length. Each returns 0, or the number of its refusal.
#[rustfmt::skip]
extern "C" {
    fn numgalis_mount(card: *const u8, _: usize, queue: *const u8, _: usize, journals: *const u8, _: usize,
        record: *mut u8, segment: *mut usize, entry: *mut usize) -> usize;
    fn numgalis_flush(card: *mut u8, _: usize, queue: *const u8, _: usize, journals: *const u8, _: usize,
        record: *mut u8, allowance: usize, stores: *mut usize, ending: *mut usize) -> usize;
    fn numgalis_new_block(card: *const u8, _: usize, queue: *const u8, _: usize, journals: *const u8, _: usize,
        record: *mut u8, stream: usize, list: usize, predecessor: usize, block: *mut usize) -> usize;
    fn numgalis_write(card: *const u8, _: usize, queue: *mut u8, _: usize, journals: *mut u8, _: usize,
        record: *mut u8, stream: usize, block: usize, race: usize, content: *const u8, _: usize) -> usize;
    fn numgalis_begin(card: *const u8, _: usize, queue: *const u8, _: usize, journals: *const u8, _: usize,
        record: *mut u8, unit: usize, window: usize) -> usize;
    fn numgalis_end(card: *const u8, _: usize, queue: *mut u8, _: usize, journals: *const u8, _: usize,
        record: *mut u8, unit: usize) -> usize;
    fn numgalis_read(card: *const u8, _: usize, queue: *const u8, _: usize, journals: *const u8, _: usize,
        record: *const u8, view: usize, block: usize, dest: *mut u8, _: usize, race: *mut usize) -> usize;
}

/// Those of the calls that are compared.
const CALLS: [Call; 6] = [
    Call::Mount,
    Call::Write,
    Call::Read(0),
    Call::Read(1),
    Call::Unit,
    Call::FlushWrite,
];

/// The record, as the library has it for C.
type Record = [u8; 573];

/// The number of the ending of a flush that drains its queue.
const DRAINED: usize = 0;

/// Calls a function with the pointers and lengths of card, queue data, journal data and record, and what else it takes.
macro_rules! call {
    ($function:ident, $disk:expr, $record:expr $(, $more:expr)*) => {{
        let (card, cards) = ($disk.card.as_mut_ptr(), $disk.card.len());
        let (queue, queues) = ($disk.queue_data.as_mut_ptr(), $disk.queue_data.len());
        let (journal, journals) = ($disk.journal_data.as_mut_ptr(), $disk.journal_data.len());
        // Sound: the pointers and the lengths are those of slices apart from each other that are lent for the call.
        unsafe { $function(card, cards, queue, queues, journal, journals, $record.as_mut_ptr() $(, $more)*) }
    }};
}

fn mount(disk: &mut Disk, record: &mut Record) -> bool {
    let (mut segment, mut entry) = (0, 0);
    call!(numgalis_mount, disk, record, &mut segment, &mut entry) == 0
}

fn begin(disk: &mut Disk, record: &mut Record) -> bool {
    call!(numgalis_begin, disk, record, 1, 1) == 0
}

fn write(disk: &mut Disk, record: &mut Record, stream: usize, block: usize) -> bool {
    call!(
        numgalis_write,
        disk,
        record,
        stream,
        block,
        0,
        CONTENT.as_ptr(),
        CONTENT.len()
    ) == 0
}

fn read(disk: &mut Disk, record: &mut Record, view: usize) -> bool {
    let (to, room, mut race) = (disk.destination.as_mut_ptr(), disk.destination.len(), 0);
    call!(numgalis_read, disk, record, view, 1, to, room, &mut race) == 0
}

fn unit(disk: &mut Disk, record: &mut Record) -> bool {
    let mut block = 0;
    begin(disk, record)
        && write(disk, record, 1, 1)
        && call!(numgalis_new_block, disk, record, 1, 1, 1, &mut block) == 0
        && write(disk, record, 1, block)
        && call!(numgalis_end, disk, record, 1) == 0
}

/// A flush; the count byte put back takes its entries off the log again.
fn flush(disk: &mut Disk, record: &mut Record) -> bool {
    let (mut stores, mut ending, count) = (0, 0, disk.card[disk.tail]);
    let answer = call!(
        numgalis_flush,
        disk,
        record,
        ALLOWANCE as usize,
        &mut stores,
        &mut ending
    );
    disk.card[disk.tail] = count;
    answer == 0 && ending == DRAINED
}

/// The record that a call is repeated from; None if a call on the way is refused.
fn start(call: Call, disk: &mut Disk) -> Option<Record> {
    let mut record = [0; 573];
    let is_set_up = mount(disk, &mut record)
        && match call {
            Call::Read(_) => begin(disk, &mut record) && write(disk, &mut record, 1, 1),
            Call::FlushWrite => write(disk, &mut record, 0, 1),
            _ => true,
        };
    is_set_up.then_some(record)
}

/// How many of `times` calls over the border are accepted, each from the same record.
#[no_mangle]
#[inline(never)]
pub extern "Rust" fn border_calls(call: Call, disk: &mut Disk, times: usize) -> u64 {
    let Some(mut kept) = start(call, disk) else {
        return 0;
    };
    let accepted = (0..times).filter(|_| match call {
        // Those that leave the record as it was, or set it anew, are made on the record itself.
        Call::Mount => mount(disk, &mut kept),
        Call::Read(view) => read(disk, &mut kept, view),
        Call::Write => write(disk, &mut kept.clone(), 0, 1),
        Call::Unit => unit(disk, &mut kept.clone()),
        Call::FlushWrite => flush(disk, &mut kept.clone()),
        Call::FlushLists => false,
    });
    accepted.count() as u64
}

/// Prints the times of a call made inside the library, and over the border.
pub fn times() {
    println!("| call | card | in the library, µs | over the border, µs | difference, µs |");
    println!("|---|---|---|---|---|");
    for (call, is_full, times) in best_times(&CALLS, [proved, border_calls]) {
        let [within, over] = times.map(|ns| ns / 1000.0);
        println!(
            "| {} | {} | {within:.3} | {over:.3} | {:.3} |",
            call.name(),
            card_name(is_full),
            over - within
        );
    }
}
