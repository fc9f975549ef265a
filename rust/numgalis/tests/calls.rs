//! Each call does what its name says with its arguments in their order, so no two arguments of a call are the same number.

mod common;

use common::{blocks, read, Kept};
use numgalis::{
    Disk, Ending, Flushed, Refusal, ALLOWANCE, BLOCK, COMMITTED, INVENTORY, JOURNAL_DATA, PAGE, PERSISTENT, QUEUE_DATA,
    RECORD, SEGMENT, SIMPLE,
};

#[test]
fn a_list_and_a_predecessor_are_told_apart() {
    Kept::formatted(1).on(|disk| {
        assert_eq!(disk.new_list(SIMPLE), Ok(1));
        assert_eq!(disk.new_list(SIMPLE), Ok(2));
        assert_eq!(disk.new_block(SIMPLE, 2, 0), Ok(1));
        assert_eq!(disk.new_block(SIMPLE, 1, 0), Ok(2));
        assert_eq!(disk.new_block(SIMPLE, 2, 1), Ok(3));
        assert_eq!(blocks(disk, COMMITTED, 1), Ok(vec![2]));
        assert_eq!(blocks(disk, COMMITTED, 2), Ok(vec![1, 3]));
        assert_eq!(disk.next(COMMITTED, 2, 1), Ok(3));
        assert_eq!(disk.next(COMMITTED, 1, 2), Ok(0));
    });
}

#[test]
fn a_write_gives_its_block_its_race_in_its_stream() {
    Kept::formatted(1).on(|disk| {
        disk.new_list(SIMPLE).unwrap();
        disk.new_block(SIMPLE, 1, 0).unwrap();
        disk.new_block(SIMPLE, 1, 1).unwrap();
        disk.begin(1, 3).unwrap();
        disk.write(1, 2, 4, &[7; BLOCK]).unwrap();
        assert_eq!(read(disk, 1, 2), Ok(([7; BLOCK], 4)));
        assert_eq!(read(disk, COMMITTED, 2), Err(Refusal::Unwritten));
        assert_eq!(read(disk, 1, 1), Err(Refusal::Unwritten));
        disk.write(SIMPLE, 1, 24, &[8; BLOCK]).unwrap();
        assert_eq!(read(disk, COMMITTED, 1), Ok(([8; BLOCK], 24)));
        disk.write(SIMPLE, 1, 0, &[9; BLOCK]).unwrap();
        assert_eq!(read(disk, COMMITTED, 1), Ok(([9; BLOCK], 0)));
        disk.end(1).unwrap();
        assert_eq!(read(disk, COMMITTED, 2), Ok(([7; BLOCK], 4)));
        assert_eq!(read(disk, PERSISTENT, 2), Err(Refusal::BlockNotPlaced));
    });
}

#[test]
fn deletions_are_made_on_their_stream() {
    Kept::formatted(1).on(|disk| {
        for list in 1..=3 {
            assert_eq!(disk.new_list(SIMPLE), Ok(list));
            assert_eq!(disk.new_block(SIMPLE, list, 0), Ok(list));
        }
        disk.begin(1, 2).unwrap();
        disk.delete_block(1, 2).unwrap();
        disk.delete_list(1, 3).unwrap();
        assert_eq!(blocks(disk, COMMITTED, 2), Ok(vec![2]));
        assert_eq!(blocks(disk, 1, 2), Ok(vec![]));
        assert_eq!(blocks(disk, 1, 3), Err(Refusal::ListNotTaken));
        assert_eq!(blocks(disk, 1, 1), Ok(vec![1]));
        disk.end(1).unwrap();
        assert_eq!(blocks(disk, COMMITTED, 2), Ok(vec![]));
        assert_eq!(blocks(disk, COMMITTED, 3), Err(Refusal::ListNotTaken));
    });
}

#[test]
fn a_conflict_is_charged_to_the_window_of_its_unit() {
    Kept::formatted(1).on(|disk| {
        disk.new_list(SIMPLE).unwrap();
        disk.begin(2, 3).unwrap();
        disk.new_block(2, 1, 0).unwrap();
        disk.delete_list(SIMPLE, 1).unwrap();
        assert_eq!(disk.end(2), Err(Refusal::Conflict));
        for window in 1..=16 {
            assert_eq!(disk.conflicts(window), Ok(usize::from(window == 3)));
        }
        // The unit is closed.
        assert_eq!(disk.end(2), Err(Refusal::StreamClosed));
        assert_eq!(disk.begin(2, 16), Ok(()));
    });
}

#[test]
fn an_inventory_has_the_earliest_list_first() {
    Kept::formatted(1).on(|disk| {
        for list in 1..=3 {
            assert_eq!(disk.new_list(SIMPLE), Ok(list));
        }
        disk.flush(ALLOWANCE).unwrap();
        disk.delete_list(SIMPLE, 1).unwrap();
        disk.begin(1, 2).unwrap();
        assert_eq!(disk.new_list(1), Ok(4));
        let mut dest = [170; INVENTORY];
        assert_eq!(disk.inventory(COMMITTED, &mut dest), Ok(&[2, 3][..]));
        assert_eq!(dest[2..], [170; INVENTORY - 2]);
        assert_eq!(disk.inventory(1, &mut dest), Ok(&[2, 3, 4][..]));
        assert_eq!(disk.inventory(PERSISTENT, &mut dest), Ok(&[1, 2, 3][..]));
    });
}

#[test]
fn a_page_has_lines_of_40_characters() {
    Kept::formatted(1).on(|disk| {
        assert_eq!(disk.page(COMMITTED, &mut []), Ok(""));
        for list in 1..=10 {
            assert_eq!(disk.new_list(SIMPLE), Ok(list));
        }
        for list in (1..=9).filter(|&list| list != 2) {
            disk.delete_list(SIMPLE, list).unwrap();
        }
        for block in 1..=12 {
            assert_eq!(disk.new_block(SIMPLE, 2, block - 1), Ok(block));
        }
        let lines = ["   2   1  2  3  4  5  6  7  8  9 10 11", "      12", "  10"];
        let text = lines.map(|line| format!("{line:<40}\n")).concat();
        let mut buffer = [170; PAGE];
        assert_eq!(disk.page(COMMITTED, &mut buffer), Ok(&text[..]));
        assert_eq!(buffer[text.len()..], [170; PAGE - 3 * 41]);
        assert_eq!(disk.page(COMMITTED, &mut buffer[..3 * 41]), Ok(&text[..]));
        assert_eq!(
            disk.page(COMMITTED, &mut buffer[..3 * 41 - 1]),
            Err(Refusal::BufferTooShort)
        );
        assert_eq!(disk.page(PERSISTENT, &mut buffer), Ok(""));
    });
}

#[test]
fn a_flush_ends_in_three_ways() {
    let flushed = |stores, ending| Ok(Flushed { stores, ending });
    Kept::formatted(1).on(|disk| {
        assert_eq!(disk.flush(0), flushed(0, Ending::Drained));
        disk.new_list(SIMPLE).unwrap();
        assert_eq!(disk.flush(0), flushed(0, Ending::Spent));
        disk.new_block(SIMPLE, 1, 0).unwrap();
        disk.write(SIMPLE, 1, 0, &[7; BLOCK]).unwrap();
        assert_eq!(disk.flush(266), flushed(266, Ending::Spent));
        assert_eq!(disk.flush(ALLOWANCE), flushed(1, Ending::Drained));
        assert_eq!(disk.card()[..BLOCK], [7; BLOCK]);
        assert_eq!(disk.card()[3584..][..9], [3, 2, 1, 3, 1, 1, 9, 1, 0]);
        // A segment has 14 slots.
        for _ in 0..14 {
            disk.write(SIMPLE, 1, 0, &[8; BLOCK]).unwrap();
        }
        assert_eq!(disk.flush(ALLOWANCE), flushed(13 * 260, Ending::Full));
    });
}

#[test]
fn mounting_and_formatting_again_begin_anew() {
    Kept::formatted(2).on(|disk| {
        disk.new_list(SIMPLE).unwrap();
        disk.flush(ALLOWANCE).unwrap();
        disk.new_list(SIMPLE).unwrap();
        disk.begin(1, 1).unwrap();
        disk.remount().unwrap();
        assert_eq!(disk.inventory(COMMITTED, &mut [0; INVENTORY]), Ok(&[1][..]));
        assert_eq!(disk.end(1), Err(Refusal::StreamClosed));
        disk.reformat().unwrap();
        assert_eq!(disk.inventory(PERSISTENT, &mut [0; INVENTORY]), Ok(&[][..]));
    });
}

#[test]
fn a_kept_record_goes_on_with_its_card() {
    let (mut card, mut queue, mut journals) = (vec![1; SEGMENT], vec![2; QUEUE_DATA], vec![3; JOURNAL_DATA]);
    let mut disk = Disk::format(&mut card, &mut queue, &mut journals).unwrap();
    disk.new_list(SIMPLE).unwrap();
    disk.begin(1, 2).unwrap();
    disk.new_block(1, 1, 0).unwrap();
    disk.write(1, 1, 5, &[7; BLOCK]).unwrap();
    let seen = *disk.record();
    let record: [u8; RECORD] = disk.into_record();
    assert_eq!(record, seen);
    let mut disk = Disk::with_record(&mut card, &mut queue, &mut journals, record);
    assert_eq!(read(&disk, 1, 1), Ok(([7; BLOCK], 5)));
    disk.end(1).unwrap();
    disk.flush(ALLOWANCE).unwrap();
    let disk = Disk::mount(&mut card, &mut queue, &mut journals).unwrap();
    assert_eq!(read(&disk, PERSISTENT, 1), Ok(([7; BLOCK], 5)));
    assert_eq!(format!("{disk:?}"), "Disk { card_length: 4096, .. }");
}

#[test]
fn a_disk_can_go_to_another_thread() {
    let mut kept = Kept::formatted(1);
    let mut disk = Disk::mount(&mut kept.card, &mut kept.queue, &mut kept.journals).unwrap();
    let list = std::thread::scope(|scope| scope.spawn(move || disk.new_list(SIMPLE)).join());
    assert_eq!(list.unwrap(), Ok(1));
}
