//! The stores listed are the stores made, byte by byte.

mod common;

use common::{content, Kept};
use numgalis::{Refusal, Store, ALLOWANCE, FLUSH_STORES, RECORD, SEGMENT, SEGMENTS, SIMPLE};

/// Where a segment's count stands.
const COUNT: usize = 3584;

/// A queue with plain entries, a write for a race and a unit with a write, and a first entry that is stored in part.
fn queued() -> Kept {
    let mut kept = Kept::formatted(2);
    kept.on(|disk| {
        disk.new_list(SIMPLE)?;
        disk.new_block(SIMPLE, 1, 0)?;
        disk.write(SIMPLE, 1, 24, &content("for a race"))?;
        disk.begin(1, 1)?;
        disk.new_block(1, 1, 1)?;
        disk.write(1, 2, 0, &content("in a unit"))?;
        disk.end(1)?;
        disk.flush(2)
    })
    .unwrap();
    kept
}

fn flush_stores(kept: &Kept, allowance: usize) -> Vec<Store> {
    kept.would(|disk| disk.flush_stores(allowance, &mut [0; FLUSH_STORES]).unwrap().collect())
}

fn store(card: &mut [u8], stores: &[Store]) {
    for store in stores {
        card[store.offset] = store.byte;
    }
}

#[test]
fn a_flush_makes_the_stores_listed() {
    let queued = queued();
    let listed = flush_stores(&queued, ALLOWANCE);
    // What is left of taking the list, the put, a write for a race; put, write and commit of the unit.
    assert_eq!(listed.len(), 1 + 4 + 261 + 5 + 260 + 3);
    for stores in 0..=listed.len() {
        assert_eq!(flush_stores(&queued, stores), listed[..stores]);
        let mut kept = queued.clone();
        assert_eq!(
            kept.on(|disk| disk.flush(stores)).map(|flushed| flushed.stores),
            Ok(stores)
        );
        let mut card = queued.card.clone();
        store(&mut card, &listed[..stores]);
        assert!(kept.card == card, "after {stores} stores");
        assert_eq!(flush_stores(&kept, ALLOWANCE), listed[stores..]);
    }
}

#[test]
fn a_full_card_ends_the_list() {
    let mut kept = Kept::formatted(1);
    kept.on(|disk| {
        disk.new_list(SIMPLE)?;
        disk.new_block(SIMPLE, 1, 0)?;
        (0..15).try_for_each(|_| disk.write(SIMPLE, 1, 0, &content("written")))
    })
    .unwrap();
    let listed = flush_stores(&kept, ALLOWANCE);
    assert_eq!(listed.len(), 3 + 4 + 14 * 260);
    let mut card = kept.card.clone();
    store(&mut card, &listed);
    kept.on(|disk| disk.flush(ALLOWANCE)).unwrap();
    assert!(kept.card == card);
}

#[test]
fn a_list_ends_with_its_room() {
    let mut kept = queued();
    let listed = flush_stores(&kept, ALLOWANCE);
    kept.on(|disk| {
        for room in [0, 1, 6, 100] {
            let mut words = vec![7; room];
            let stores = disk.flush_stores(ALLOWANCE, &mut words).unwrap();
            assert_eq!(stores.len(), room);
            assert!(stores.eq(listed[..room].iter().copied()));
        }
        let mut words = [7; 100];
        let stores = disk.flush_stores(6, &mut words).unwrap();
        assert_eq!(stores.words().len(), 6);
        assert_eq!(words[6..], [7; 94]);
    });
}

#[test]
fn a_formatting_makes_the_stores_listed() {
    for segments in [1, 2, SEGMENTS] {
        let mut kept = Kept::garbage(segments);
        let mut words = [7; SEGMENTS];
        let listed: Vec<Store> = kept.would(|disk| disk.format_stores(&mut words).unwrap().collect());
        let counts = (0..segments).rev().map(|segment| segment * SEGMENT + COUNT);
        assert!(listed
            .iter()
            .copied()
            .eq(counts.map(|offset| Store { offset, byte: 0 })));
        let mut card = kept.card.clone();
        store(&mut card, &listed);
        kept.on(|disk| disk.reformat()).unwrap();
        assert!(kept.card == card);
    }
}

#[test]
fn a_list_is_refused_as_the_call_is() {
    let mut kept = queued();
    let mut words = [7; 9];
    kept.on(|disk| {
        let list = disk.flush_stores(ALLOWANCE + 1, &mut words);
        assert_eq!(list.map(|stores| stores.len()), Err(Refusal::OutOfRange));
    });
    kept.record = [255; RECORD];
    kept.on(|disk| {
        let list = disk.flush_stores(ALLOWANCE, &mut words);
        assert_eq!(list.map(|stores| stores.len()), Err(Refusal::RecordUnsound));
        assert_eq!(disk.format_stores(&mut words).map(|stores| stores.len()), Ok(2));
    });
    words = [7; 9];
    kept.card.pop();
    kept.on(|disk| {
        let list = disk.flush_stores(ALLOWANCE, &mut words);
        assert_eq!(list.map(|stores| stores.len()), Err(Refusal::WrongLength));
        let list = disk.format_stores(&mut words);
        assert_eq!(list.map(|stores| stores.len()), Err(Refusal::WrongLength));
    });
    assert_eq!(words, [7; 9]);
}
