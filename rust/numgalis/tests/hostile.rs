//! Whatever lengths, records and numbers come: a call returns, and what it refuses has changed nothing.

mod common;

use common::{content, read, Kept, CALLS};
use numgalis::{Disk, Refusal, BLOCK, COMMITTED, INVENTORY, JOURNAL_DATA, PAGE, QUEUE_DATA, RECORD, SEGMENT, SIMPLE};

/// Something of everything: contents on the card, in the queue and in a journal.
fn in_use() -> Kept {
    let mut kept = Kept::formatted(2);
    kept.on(|disk| {
        disk.new_list(SIMPLE)?;
        disk.new_block(SIMPLE, 1, 0)?;
        disk.write(SIMPLE, 1, 5, &content("on the card"))?;
        disk.flush(200)?;
        disk.new_list(SIMPLE)?;
        disk.begin(2, 3)?;
        disk.new_block(2, 1, 1)?;
        disk.write(2, 2, 0, &content("in a journal"))
    })
    .unwrap();
    kept
}

#[test]
fn lengths() {
    let right = in_use();
    let cards = [0, 1, SEGMENT - 1, SEGMENT + 1, 65 * SEGMENT, 2 * SEGMENT];
    let queues = [0, QUEUE_DATA - 1, QUEUE_DATA + 1, QUEUE_DATA];
    let journals = [0, JOURNAL_DATA - 1, JOURNAL_DATA + 1, JOURNAL_DATA];
    for card in cards {
        for queue in queues {
            for journal in journals {
                let mut kept = right.clone();
                kept.card.resize(card, 171);
                kept.queue.resize(queue, 172);
                kept.journals.resize(journal, 173);
                if kept == right {
                    continue;
                }
                for (name, call) in CALLS {
                    let result = kept.unchanged_if_refused(call);
                    assert_eq!(result, Err(Refusal::WrongLength), "{name}: {card}, {queue}, {journal}");
                }
                let formatted = kept.unchanged_if_refused(|disk| disk.reformat());
                assert_eq!(
                    formatted,
                    Err(Refusal::WrongLength),
                    "format: {card}, {queue}, {journal}"
                );
                let mounted = kept.unchanged_if_refused(|disk| disk.remount());
                assert_eq!(mounted, Err(Refusal::WrongLength), "mount: {card}, {queue}, {journal}");
            }
        }
    }
}

/// Bytes without rule, from a seed.
fn noise(seed: u64) -> impl Iterator<Item = u8> {
    std::iter::successors(Some(seed), |state| {
        Some(
            state
                .wrapping_mul(6364136223846793005)
                .wrapping_add(1442695040888963407),
        )
    })
    .map(|state| (state >> 56) as u8)
    .skip(8)
}

#[test]
fn records() {
    let flat = (0..=255).map(|byte| [byte; RECORD]);
    let noisy = (0..500).map(|seed| {
        let mut bytes = noise(seed);
        std::array::from_fn(|_| bytes.next().unwrap_or(0))
    });
    let mut kept = in_use();
    for record in flat.chain(noisy) {
        kept.record = record;
        for (name, call) in CALLS {
            let result = kept.unchanged_if_refused(call);
            assert_eq!(result, Err(Refusal::RecordUnsound), "{name}");
        }
        let before = kept.clone();
        let mounted = kept.would(|disk| disk.remount());
        assert!(matches!(mounted, Ok(())), "mounting looks at no record");
        assert!(kept == before);
    }
}

/// A record with one byte changed may be sound still.
#[test]
fn records_with_a_changed_byte() {
    let right = in_use();
    let mut unsound = 0;
    for at in 0..RECORD {
        for byte in [right.record[at].wrapping_add(1), right.record[at] ^ 128, 255] {
            let mut kept = right.clone();
            kept.record[at] = byte;
            for (_, call) in CALLS {
                let result = kept.clone().unchanged_if_refused(call);
                unsound += usize::from(result == Err(Refusal::RecordUnsound));
            }
        }
    }
    assert!(unsound > 0);
}

/// A call, and the refusal that it must have.
type Refused<'c> = (Refusal, &'c dyn Fn(&mut Disk) -> Result<usize, Refusal>);

/// 257 is not 1, and no number is too large.
#[test]
fn numbers() {
    let mut kept = in_use();
    for number in [257, 1 << 16 | 1, 1 << 32 | 1, usize::MAX] {
        let calls: [Refused; 26] = [
            (Refusal::StreamClosed, &|disk| disk.new_list(number)),
            (Refusal::StreamClosed, &|disk| disk.new_block(number, 1, 0)),
            (Refusal::OutOfRange, &|disk| disk.new_block(SIMPLE, number, 0)),
            (Refusal::OutOfRange, &|disk| disk.new_block(SIMPLE, 1, number)),
            (Refusal::StreamClosed, &|disk| {
                disk.write(number, 1, 0, &[0; BLOCK]).map(|()| 0)
            }),
            (Refusal::OutOfRange, &|disk| {
                disk.write(SIMPLE, number, 0, &[0; BLOCK]).map(|()| 0)
            }),
            (Refusal::OutOfRange, &|disk| {
                disk.write(SIMPLE, 1, number, &[0; BLOCK]).map(|()| 0)
            }),
            (Refusal::OutOfRange, &|disk| disk.write(SIMPLE, 1, 0, &[]).map(|()| 0)),
            (Refusal::StreamClosed, &|disk| disk.delete_block(number, 1).map(|()| 0)),
            (Refusal::OutOfRange, &|disk| {
                disk.delete_block(SIMPLE, number).map(|()| 0)
            }),
            (Refusal::StreamClosed, &|disk| disk.delete_list(number, 1).map(|()| 0)),
            (Refusal::OutOfRange, &|disk| {
                disk.delete_list(SIMPLE, number).map(|()| 0)
            }),
            (Refusal::StreamClosed, &|disk| disk.begin(number, 1).map(|()| 0)),
            (Refusal::OutOfRange, &|disk| disk.begin(1, number).map(|()| 0)),
            (Refusal::StreamClosed, &|disk| disk.end(number).map(|()| 0)),
            (Refusal::OutOfRange, &|disk| {
                disk.flush(number << 16 | number).map(|flushed| flushed.stores)
            }),
            (Refusal::StreamClosed, &|disk| read(disk, number, 1).map(|_| 0)),
            (Refusal::OutOfRange, &|disk| read(disk, COMMITTED, number).map(|_| 0)),
            (Refusal::OutOfRange, &|disk| disk.read(COMMITTED, 1, &mut [])),
            (Refusal::StreamClosed, &|disk| disk.next(number, 1, 0)),
            (Refusal::OutOfRange, &|disk| disk.next(COMMITTED, number, 0)),
            (Refusal::OutOfRange, &|disk| disk.next(COMMITTED, 1, number)),
            (Refusal::StreamClosed, &|disk| {
                disk.inventory(number, &mut [0; INVENTORY]).map(<[u8]>::len)
            }),
            (Refusal::OutOfRange, &|disk| {
                disk.inventory(COMMITTED, &mut []).map(<[u8]>::len)
            }),
            (Refusal::StreamClosed, &|disk| {
                disk.page(number, &mut [0; PAGE]).map(str::len)
            }),
            (Refusal::OutOfRange, &|disk| disk.conflicts(number)),
        ];
        for (at, (refusal, call)) in calls.into_iter().enumerate() {
            assert_eq!(kept.unchanged_if_refused(call), Err(refusal), "call {at}, {number}");
        }
    }
}
