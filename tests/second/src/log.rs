//! The log on the card: its layout, its reader, and where and how an entry is stored.
//! Document 01, "The card and the record", "What a state is", "Flush" and question 2.
//!
//! | offset in a segment | bytes | what stands there |
//! |---|---|---|
//! | 0 | 14 × 256 | slots 0 to 13 |
//! | 3,584 | 1 | count of entries |
//! | 3,585 | 511 | entries |

use crate::entry::{Cause, Entry};
use crate::limits::{BLOCK_BYTES, ENTRY_BYTES, SEGMENTS, SEGMENT_BYTES, SLOTS, SUMMARY_AT};
use crate::state::{Content, Reading, Stop};

/// The first fault of a log in walking order.
#[derive(Clone, Copy, PartialEq, Eq, Debug)]
pub struct Fault {
    /// From 0.
    pub segment: u8,
    /// From 0.
    pub entry: u8,
    /// What is wrong there.
    pub cause: Cause,
}

/// The end of the log: the last segment in use, 0 if none is, and what it holds.
#[derive(Clone, Copy, PartialEq, Eq, Debug)]
pub struct End {
    /// From 0.
    pub segment: usize,
    /// Entries.
    pub count: u8,
    /// Slots in use.
    pub slots: u8,
    /// Bytes of entries.
    pub bytes: usize,
}

/// An acceptable log, read.
#[derive(Clone, Copy, Debug)]
pub struct Log {
    /// The persistent state, and the members at the end of the log.
    pub reading: Reading,
    /// Where the log ends.
    pub end: End,
    /// Segments with a count above 0.
    pub used: usize,
    /// Entries, commits and dead members among them.
    pub entries: usize,
}

/// Segments of a card, if its length is right.
pub fn segments(card: &[u8]) -> Option<usize> {
    let segments = card.len() / SEGMENT_BYTES;
    (card.len().is_multiple_of(SEGMENT_BYTES) && (1..=SEGMENTS).contains(&segments)).then_some(segments)
}

/// Where the count byte of a segment stands.
pub fn count_at(segment: usize) -> usize {
    segment * SEGMENT_BYTES + SUMMARY_AT
}

/// Where the entry bytes of a segment begin.
pub fn entries_at(segment: usize) -> usize {
    count_at(segment) + 1
}

/// Where a slot of a segment begins.
pub fn slot_at(segment: usize, slot: u8) -> usize {
    segment * SEGMENT_BYTES + usize::from(slot) * BLOCK_BYTES
}

/// The 511 bytes of entries of a segment.
pub fn entry_bytes(card: &[u8], segment: usize) -> &[u8] {
    &card[entries_at(segment)..][..ENTRY_BYTES]
}

impl Log {
    /// Walks the log of a card of right length: question 2.
    pub fn read(card: &[u8]) -> Result<Log, Fault> {
        let segments = card.len() / SEGMENT_BYTES;
        let used = (0..segments)
            .position(|segment| card[count_at(segment)] == 0)
            .unwrap_or(segments);
        let mut log = Log {
            reading: Reading::START,
            end: End {
                segment: 0,
                count: 0,
                slots: 0,
                bytes: 0,
            },
            used,
            entries: 0,
        };
        for segment in 0..used {
            log.read_segment(card, segment)?;
        }
        match (used..segments).find(|&segment| card[count_at(segment)] != 0) {
            None => Ok(log),
            Some(segment) => Err(Fault {
                segment: segment as u8,
                entry: 0,
                cause: Cause::AfterEmpty,
            }),
        }
    }

    fn read_segment(&mut self, card: &[u8], segment: usize) -> Result<(), Fault> {
        let bytes = entry_bytes(card, segment);
        let count = card[count_at(segment)];
        let mut slots = 0;
        let mut at = 0;
        for number in 0..count {
            let fault = |cause| Fault {
                segment: segment as u8,
                entry: number,
                cause,
            };
            let decoded = Entry::decode(&bytes[at..]).map_err(fault)?;
            at += decoded.length;
            if decoded.entry.is_write() {
                if decoded.slot != slots {
                    return Err(fault(Cause::Slot));
                }
                slots += 1;
            }
            let content = Content::Slot {
                segment: segment as u8,
                slot: decoded.slot,
            };
            self.reading.read(decoded.entry, content).map_err(|stop| match stop {
                Stop::Run => fault(Cause::Run),
                Stop::Inapplicable => fault(Cause::Inapplicable),
            })?;
        }
        self.entries += usize::from(count);
        self.end = End {
            segment,
            count,
            slots,
            bytes: at,
        };
        Ok(())
    }
}

/// Where an entry is to stand.
#[derive(Clone, Copy, PartialEq, Eq, Debug)]
pub struct Place {
    segment: usize,
    /// Entries before it in the segment.
    count: u8,
    /// The segment's next slot.
    slot: u8,
    /// Bytes of entries before it in the segment.
    bytes: usize,
}

impl End {
    /// The place of an entry that comes next: the last segment in use if it fits there, else the next. None if there
    /// is no next.
    pub fn place(&self, entry: Entry, segments: usize) -> Option<Place> {
        let has_slot = !entry.is_write() || self.slots < SLOTS;
        if has_slot && self.bytes + entry.length() <= ENTRY_BYTES {
            return Some(Place {
                segment: self.segment,
                count: self.count,
                slot: self.slots,
                bytes: self.bytes,
            });
        }
        let next = self.segment + 1;
        (next < segments).then_some(Place {
            segment: next,
            count: 0,
            slot: 0,
            bytes: 0,
        })
    }
}

impl Place {
    /// The end of the log once `entry` stands here.
    pub fn end_after(&self, entry: Entry) -> End {
        End {
            segment: self.segment,
            count: self.count + 1,
            slots: self.slot + u8::from(entry.is_write()),
            bytes: self.bytes + entry.length(),
        }
    }
}

/// Stores that an entry takes: its data if it writes, its bytes, its count.
pub fn stores_of(entry: Entry) -> usize {
    data_stores_of(entry) + entry.length() + 1
}

fn data_stores_of(entry: Entry) -> usize {
    if entry.is_write() {
        BLOCK_BYTES
    } else {
        0
    }
}

/// The stores of an entry at its place, in their order.
pub struct Stores<'a> {
    place: Place,
    entry: Entry,
    data: &'a [u8],
}

/// One store: where, and which byte.
pub struct Store {
    /// Offset on the card.
    pub at: usize,
    /// What is stored.
    pub byte: u8,
}

impl<'a> Stores<'a> {
    /// The stores of `entry` at `place`; `data` are the 256 bytes of its place in the queue.
    pub fn new(entry: Entry, place: Place, data: &'a [u8]) -> Stores<'a> {
        Stores { place, entry, data }
    }

    /// The store numbered `number` from 0: "256 data bytes into the segment's next slot; then the entry, lowest byte
    /// first; then the raised count byte".
    pub fn nth(&self, number: usize) -> Store {
        let place = &self.place;
        let data_stores = data_stores_of(self.entry);
        if number < data_stores {
            return Store {
                at: slot_at(place.segment, place.slot) + number,
                byte: self.data[number],
            };
        }
        let encoded = self.entry.encode(place.slot);
        match encoded.bytes().get(number - data_stores) {
            Some(&byte) => Store {
                at: entries_at(place.segment) + place.bytes + number - data_stores,
                byte,
            },
            None => Store {
                at: count_at(place.segment),
                byte: place.count + 1,
            },
        }
    }
}

/// The first `stores` stores of a formatting: 0 in each count byte, "the last segment's first and segment 0's last".
pub fn format(card: &mut [u8], stores: usize) {
    let segments = card.len() / SEGMENT_BYTES;
    for segment in (0..segments).rev().take(stores) {
        card[count_at(segment)] = 0;
    }
}
