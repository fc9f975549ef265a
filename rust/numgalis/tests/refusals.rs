//! Each refusal, with its number, and where it comes from.

mod common;

use common::{content, read, Kept};
use numgalis::{Disk, Refusal, ALLOWANCE, BLOCK, COMMITTED, INVENTORY, RECORD, SEGMENT, SIMPLE};
use std::collections::HashSet;
use std::error::Error;

/// Where a segment's count stands.
const COUNT: usize = 3584;

/// List 1 with blocks 1 and 2, of which 1 is written.
fn begun() -> Kept {
    let mut kept = Kept::formatted(1);
    kept.on(|disk| {
        disk.new_list(SIMPLE)?;
        disk.new_block(SIMPLE, 1, 0)?;
        disk.new_block(SIMPLE, 1, 1)?;
        disk.write(SIMPLE, 1, 0, &content("written"))
    })
    .unwrap();
    kept
}

/// The call is refused so, with this number, and changes nothing.
#[track_caller]
fn refused<T>(kept: &mut Kept, refusal: Refusal, number: usize, call: impl FnOnce(&mut Disk) -> Result<T, Refusal>) {
    assert_eq!(kept.unchanged_if_refused(call).err(), Some(refusal));
    assert_eq!(refusal.number(), number);
}

#[test]
fn of_lengths() {
    let mut kept = begun();
    kept.queue.pop();
    refused(&mut kept, Refusal::WrongLength, 1, |disk| disk.new_list(SIMPLE));
    refused(&mut kept, Refusal::WrongLength, 1, |disk| disk.remount());
    let format = Disk::format(&mut kept.card, &mut kept.queue, &mut kept.journals);
    assert_eq!(format.unwrap_err(), Refusal::WrongLength);
}

#[test]
fn of_a_faulty_log_with_segment_and_entry() {
    let mut kept = Kept::formatted(3);
    // Take list 1; then 2, 3 and 3 again, which is taken already.
    kept.card[COUNT..][..3].copy_from_slice(&[1, 2, 1]);
    kept.card[SEGMENT + COUNT..][..7].copy_from_slice(&[3, 2, 2, 2, 3, 2, 3]);
    let fault = Refusal::LogFault { segment: 1, entry: 2 };
    refused(&mut kept, fault, 2, |disk| disk.remount());
    let mount = Disk::mount(&mut kept.card, &mut kept.queue, &mut kept.journals);
    assert_eq!(mount.unwrap_err(), fault);
    assert_eq!(fault.to_string(), "the card's log has a fault: segment 1, entry 2");
    // Where it is not asked, a faulty log is a record that does not go with the card.
    refused(&mut kept, Refusal::RecordUnsound, 3, |disk| disk.new_list(SIMPLE));
}

#[test]
fn of_the_record() {
    let mut kept = begun();
    kept.record = [255; RECORD];
    refused(&mut kept, Refusal::RecordUnsound, 3, |disk| disk.new_list(SIMPLE));
}

#[test]
fn of_streams_and_views() {
    let mut kept = begun();
    refused(&mut kept, Refusal::StreamClosed, 4, |disk| disk.new_list(1));
    refused(&mut kept, Refusal::StreamClosed, 4, |disk| disk.new_block(5, 1, 0));
    refused(&mut kept, Refusal::StreamClosed, 4, |disk| disk.end(0));
    refused(&mut kept, Refusal::StreamClosed, 4, |disk| disk.begin(5, 1));
    refused(&mut kept, Refusal::StreamClosed, 4, |disk| disk.next(6, 1, 0));
    refused(&mut kept, Refusal::StreamClosed, 4, |disk| read(disk, 4, 1));
}

#[test]
fn of_ranges() {
    let mut kept = begun();
    refused(&mut kept, Refusal::OutOfRange, 5, |disk| disk.new_block(SIMPLE, 17, 0));
    refused(&mut kept, Refusal::OutOfRange, 5, |disk| disk.new_block(SIMPLE, 1, 65));
    refused(&mut kept, Refusal::OutOfRange, 5, |disk| {
        disk.write(SIMPLE, 1, 25, &[0; BLOCK])
    });
    refused(&mut kept, Refusal::OutOfRange, 5, |disk| {
        disk.write(SIMPLE, 1, 0, &[0; BLOCK - 1])
    });
    refused(&mut kept, Refusal::OutOfRange, 5, |disk| disk.delete_block(SIMPLE, 65));
    refused(&mut kept, Refusal::OutOfRange, 5, |disk| disk.delete_list(SIMPLE, 0));
    refused(&mut kept, Refusal::OutOfRange, 5, |disk| disk.begin(1, 17));
    refused(&mut kept, Refusal::OutOfRange, 5, |disk| disk.flush(ALLOWANCE + 1));
    refused(&mut kept, Refusal::OutOfRange, 5, |disk| {
        disk.read(COMMITTED, 1, &mut [0; BLOCK + 1])
    });
    refused(&mut kept, Refusal::OutOfRange, 5, |disk| {
        disk.inventory(COMMITTED, &mut [0; INVENTORY - 1]).map(<[u8]>::len)
    });
    refused(&mut kept, Refusal::OutOfRange, 5, |disk| disk.conflicts(0));
}

#[test]
fn of_lists_blocks_and_units() {
    let mut kept = begun();
    kept.on(|disk| disk.begin(3, 1)).unwrap();
    refused(&mut kept, Refusal::UnitOpen, 6, |disk| disk.begin(3, 1));
    refused(&mut kept, Refusal::ListNotTaken, 7, |disk| disk.new_block(SIMPLE, 2, 0));
    refused(&mut kept, Refusal::BlockNotPlaced, 8, |disk| {
        disk.delete_block(SIMPLE, 3)
    });
    refused(&mut kept, Refusal::PredecessorElsewhere, 9, |disk| {
        disk.next(COMMITTED, 1, 3)
    });
    refused(&mut kept, Refusal::Unwritten, 15, |disk| read(disk, COMMITTED, 2));
    refused(&mut kept, Refusal::BufferTooShort, 14, |disk| {
        disk.page(COMMITTED, &mut [0; 40]).map(str::len)
    });
}

#[test]
fn of_what_is_full() {
    let mut kept = Kept::formatted(1);
    for _ in 0..16 {
        kept.on(|disk| disk.new_list(SIMPLE)).unwrap();
    }
    refused(&mut kept, Refusal::NoNumberFree, 10, |disk| disk.new_list(SIMPLE));
    kept.on(|disk| disk.begin(1, 1)).unwrap();
    for _ in 0..15 {
        kept.on(|disk| disk.new_block(1, 1, 0)).unwrap();
    }
    refused(&mut kept, Refusal::JournalFull, 11, |disk| disk.new_block(1, 1, 0));
    for _ in 0..16 {
        kept.on(|disk| disk.new_block(SIMPLE, 2, 0)).unwrap();
    }
    refused(&mut kept, Refusal::QueueFull, 13, |disk| disk.new_block(SIMPLE, 2, 0));
    refused(&mut kept, Refusal::QueueFull, 13, |disk| disk.end(1));
}

#[test]
fn of_a_conflict_which_alone_changes_something() {
    let mut kept = begun();
    kept.on(|disk| {
        disk.begin(2, 1)?;
        disk.write(2, 1, 0, &[7; BLOCK])?;
        disk.delete_block(SIMPLE, 1)
    })
    .unwrap();
    let before = kept.clone();
    assert_eq!(kept.on(|disk| disk.end(2)), Err(Refusal::Conflict));
    assert_eq!(Refusal::Conflict.number(), 12);
    assert!(kept.record != before.record);
    assert!((kept.card, kept.queue, kept.journals) == (before.card, before.queue, before.journals));
}

#[test]
fn each_says_a_sentence_of_its_own_and_is_an_error() {
    let all = [
        Refusal::WrongLength,
        Refusal::LogFault { segment: 0, entry: 0 },
        Refusal::RecordUnsound,
        Refusal::StreamClosed,
        Refusal::OutOfRange,
        Refusal::UnitOpen,
        Refusal::ListNotTaken,
        Refusal::BlockNotPlaced,
        Refusal::PredecessorElsewhere,
        Refusal::NoNumberFree,
        Refusal::JournalFull,
        Refusal::Conflict,
        Refusal::QueueFull,
        Refusal::BufferTooShort,
        Refusal::Unwritten,
    ];
    assert!(all.into_iter().map(Refusal::number).eq(1..=15));
    let sentences: HashSet<String> = all.into_iter().map(|refusal| refusal.to_string()).collect();
    assert_eq!(sentences.len(), 15);
    let errors = all.into_iter().map(Box::<dyn Error>::from);
    assert!(errors
        .map(|error| error.to_string())
        .all(|sentence| sentences.contains(&sentence)));
}
