//! A runner is scratched, and the power is cut after each byte store in turn: what does the terminal wake up with?

mod common;

use common::{blocks, content, read, Kept};
use numgalis::{Disk, Ending, Flushed, Refusal, ALLOWANCE, COMMITTED, PERSISTENT, SIMPLE};

const RUNNERS: [&str; 3] = ["1 Alba", "2 Brio", "3 Cima"];
const RACE: [&str; 2] = ["race 5, three runners", "race 5, two runners"];
const POOL: [&str; 2] = ["Alba 120 Brio 80 Cima 50", "Alba 120 Cima 50, Brio's 80 refunded"];

const RACE_BLOCK: usize = 4;
const POOL_BLOCK: usize = 5;

/// List 1 has the runners' blocks, list 2 the race's and the pool's; all is on the card.
fn set_up(disk: &mut Disk) -> Result<(), Refusal> {
    disk.new_list(SIMPLE)?;
    disk.new_list(SIMPLE)?;
    for (runner, text) in RUNNERS.into_iter().enumerate() {
        let block = disk.new_block(SIMPLE, 1, runner)?;
        disk.write(SIMPLE, block, 0, &content(text))?;
    }
    assert_eq!(disk.new_block(SIMPLE, 2, 0), Ok(RACE_BLOCK));
    disk.write(SIMPLE, RACE_BLOCK, 0, &content(RACE[0]))?;
    assert_eq!(disk.new_block(SIMPLE, 2, RACE_BLOCK), Ok(POOL_BLOCK));
    disk.write(SIMPLE, POOL_BLOCK, 0, &content(POOL[0]))?;
    assert_eq!(disk.flush(ALLOWANCE)?.ending, Ending::Drained);
    Ok(())
}

fn scratch(disk: &mut Disk, stream: usize) -> Result<(), Refusal> {
    disk.delete_block(stream, 2)?;
    disk.write(stream, RACE_BLOCK, 0, &content(RACE[1]))?;
    disk.write(stream, POOL_BLOCK, 0, &content(POOL[1]))
}

/// The race card with the scratch queued: in one unit, or as simple changes.
fn queued(in_unit: bool) -> Kept {
    let mut kept = Kept::formatted(1);
    kept.on(|disk| {
        set_up(disk)?;
        if !in_unit {
            return scratch(disk, SIMPLE);
        }
        disk.begin(1, 1)?;
        scratch(disk, 1)?;
        disk.end(1)
    })
    .unwrap();
    kept
}

#[derive(Debug, PartialEq, Eq)]
enum Woken {
    Old,
    New,
    Mixture,
}

/// What the terminal reads.
fn woken(disk: &Disk, view: usize) -> Woken {
    let contents = |blocks: Vec<usize>| -> Vec<_> {
        let read = blocks.into_iter().map(|block| read(disk, view, block).unwrap());
        read.collect()
    };
    let race_card = [blocks(disk, view, 1), blocks(disk, view, 2)].map(|list| contents(list.unwrap()));
    let of = |texts: &[&str]| texts.iter().map(|text| (content(text), 0)).collect::<Vec<_>>();
    if race_card == [of(&RUNNERS), of(&[RACE[0], POOL[0]])] {
        Woken::Old
    } else if race_card == [of(&[RUNNERS[0], RUNNERS[2]]), of(&[RACE[1], POOL[1]])] {
        Woken::New
    } else {
        Woken::Mixture
    }
}

/// What the terminal wakes up with after each number of stores of a flush, from none to all.
fn after_each_cut(queued: &Kept) -> Vec<Woken> {
    let all = queued.would(|disk| disk.flush(ALLOWANCE)).unwrap().stores;
    let cut = |stores: usize| {
        let ending = if stores == all { Ending::Drained } else { Ending::Spent };
        let mut kept = queued.clone();
        assert_eq!(kept.on(|disk| disk.flush(stores)), Ok(Flushed { stores, ending }));
        kept.cut();
        let disk = Disk::mount(&mut kept.card, &mut kept.queue, &mut kept.journals).unwrap();
        let woken_with = woken(&disk, COMMITTED);
        assert_eq!(woken(&disk, PERSISTENT), woken_with);
        woken_with
    };
    (0..=all).map(cut).collect()
}

#[test]
fn a_unit_is_found_whole_or_not_at_all() {
    let states = after_each_cut(&queued(true));
    assert_eq!(states.len(), 527);
    for (stores, state) in states.into_iter().enumerate() {
        let expected = if stores < 526 { Woken::Old } else { Woken::New };
        assert_eq!(state, expected, "cut after {stores} stores");
    }
}

/// The cuts of the test above would show mixtures if there were some.
#[test]
fn simple_changes_are_found_one_by_one() {
    let states = after_each_cut(&queued(false));
    assert_eq!(states.len(), 524);
    for (stores, state) in states.into_iter().enumerate() {
        let expected = match stores {
            0..=2 => Woken::Old,
            523 => Woken::New,
            _ => Woken::Mixture,
        };
        assert_eq!(state, expected, "cut after {stores} stores");
    }
}

#[test]
fn a_flush_goes_on_where_the_last_one_stopped() {
    let queued = queued(true);
    let mut whole = queued.clone();
    whole.on(|disk| disk.flush(ALLOWANCE)).unwrap();
    for first in 0..=526 {
        let mut kept = queued.clone();
        kept.on(|disk| {
            assert_eq!(disk.flush(first)?.stores, first);
            assert_eq!(disk.flush(ALLOWANCE)?.stores, 526 - first);
            Ok::<_, Refusal>(())
        })
        .unwrap();
        assert!(kept == whole, "turns of {first} and the rest");
    }
}

#[test]
fn a_unit_lost_with_the_power_leaves_nothing() {
    let mut kept = Kept::formatted(1);
    kept.on(|disk| {
        set_up(disk)?;
        disk.begin(1, 1)?;
        scratch(disk, 1)?;
        disk.flush(ALLOWANCE)
    })
    .unwrap();
    assert_eq!(kept.would(|disk| woken(disk, 1)), Woken::New);
    kept.cut();
    kept.on(|disk| disk.remount()).unwrap();
    assert_eq!(kept.on(|disk| woken(disk, COMMITTED)), Woken::Old);
    assert_eq!(kept.on(|disk| disk.end(1)), Err(Refusal::StreamClosed));
}
