//! Cards with full segments.

use second::limits::{BLOCKS, BLOCK_BYTES, ENTRY_BYTES, SEGMENTS, SEGMENT_BYTES, SLOTS};
use second::log::{count_at, entries_at, slot_at};

/// What the segments of a card are full of.
#[derive(Clone, Copy, PartialEq, Eq)]
pub enum Kind {
    Lists,
    Blocks,
    Chains,
    Long,
    Writes,
    Races,
    Units,
}

impl Kind {
    pub const ALL: [Kind; 7] = [
        Kind::Lists,
        Kind::Blocks,
        Kind::Chains,
        Kind::Long,
        Kind::Writes,
        Kind::Races,
        Kind::Units,
    ];

    pub fn name(self) -> &'static str {
        match self {
            Kind::Lists => "lists",
            Kind::Blocks => "blocks",
            Kind::Chains => "chains",
            Kind::Long => "long",
            Kind::Writes => "writes",
            Kind::Races => "races",
            Kind::Units => "units",
        }
    }

    /// The state that every round finds: list 1 with block 1, or nothing where a round puts all blocks.
    fn opening(self) -> Vec<Vec<u8>> {
        match self {
            Kind::Long => vec![],
            _ => vec![vec![TAKE, 1], vec![PUT_FIRST, 1, 1]],
        }
    }

    /// Entries that leave the state as they found it. The slot of a write is filled in later.
    fn round(self, number: usize) -> Vec<Vec<u8>> {
        let list = 2 + (number % 15) as u8;
        let block = 2 + (number % 60) as u8;
        match self {
            Kind::Lists => vec![vec![TAKE, list], vec![DELETE_LIST, list]],
            Kind::Blocks => vec![vec![PUT_FIRST, block, 1], vec![DELETE_BLOCK, block]],
            Kind::Chains => vec![
                vec![TAKE, list],
                vec![PUT_FIRST, block, list],
                vec![PUT_AFTER, block + 1, list, block],
                vec![PUT_AFTER, block + 2, list, block],
                vec![DELETE_LIST, list],
            ],
            Kind::Long => [long_list(list), vec![vec![DELETE_LIST, list]]].concat(),
            Kind::Writes => vec![vec![WRITE, 1, 0]],
            Kind::Races => vec![vec![RACE | WRITE, 1, 0, 1 + (number % 24) as u8]],
            Kind::Units => vec![
                vec![MEMBER | PUT_FIRST, block, 1],
                vec![MEMBER | DELETE_BLOCK, block],
                vec![COMMIT, 2],
            ],
        }
    }
}

const TAKE: u8 = 2;
const PUT_FIRST: u8 = 3;
const PUT_AFTER: u8 = 7;
const WRITE: u8 = 9;
const COMMIT: u8 = 16;
const DELETE_BLOCK: u8 = 33;
const DELETE_LIST: u8 = 34;
const RACE: u8 = 64;
const MEMBER: u8 = 128;

/// A card, and what its summaries hold.
#[derive(Clone)]
pub struct Card {
    pub bytes: Vec<u8>,
    pub entries: usize,
    /// Where the used bytes of each summary end.
    pub ends: Vec<usize>,
}

/// A card whose segments are all full: of entry bytes, or of slots if it is one of writes.
pub fn full(kind: Kind, segments: usize) -> Card {
    let rounds = (0..).flat_map(|number| kind.round(number));
    filled(kind.opening().into_iter().chain(rounds), segments)
}

/// A list with all blocks.
fn long_list(list: u8) -> Vec<Vec<u8>> {
    let puts = (1..=BLOCKS).map(|block| vec![PUT_FIRST, block, list]);
    std::iter::once(vec![TAKE, list]).chain(puts).collect()
}

/// A card of one segment with a list of all blocks; deleted in the last entry, or there still.
pub fn long(is_deleted: bool) -> Card {
    let deletion = is_deleted.then(|| vec![DELETE_LIST, 1]);
    filled(long_list(1).into_iter().chain(deletion), 1)
}

/// A card for the calls, with list 1 and block 1, which is written: all else is empty, or full of units but for the
/// last entries, so that a flush has room.
pub fn for_calls(is_full: bool) -> Card {
    let opening = vec![vec![TAKE, 1], vec![PUT_FIRST, 1, 1], vec![WRITE, 1, 0]];
    let rounds = (0..).flat_map(|number| Kind::Units.round(number));
    let rounds = rounds.take(if is_full { usize::MAX } else { 0 });
    let mut card = filled(opening.into_iter().chain(rounds), SEGMENTS);
    for (at, byte) in card.bytes[slot_at(0, 0)..][..BLOCK_BYTES].iter_mut().enumerate() {
        *byte = at as u8;
    }
    if is_full {
        let tail = card.tail();
        card.bytes[tail] -= ROOM;
        card.entries -= usize::from(ROOM);
    }
    card
}

/// Entries taken from the end of a full card.
const ROOM: u8 = 42;

impl Card {
    /// Where the count byte of the last segment in use stands.
    pub fn tail(&self) -> usize {
        let last = (0..self.ends.len()).rfind(|&segment| self.bytes[count_at(segment)] > 0);
        count_at(last.unwrap_or(0))
    }
}

fn filled(coming: impl Iterator<Item = Vec<u8>>, segments: usize) -> Card {
    let mut card = Card {
        bytes: vec![0; segments * SEGMENT_BYTES],
        entries: 0,
        ends: Vec::new(),
    };
    let mut coming = coming.peekable();
    for segment in 0..segments {
        let mut slots = 0;
        let mut at = entries_at(segment);
        let end = at + ENTRY_BYTES;
        while let Some(entry) = coming.next_if(|entry| fits(entry, at, end, slots)) {
            card.bytes[at..at + entry.len()].copy_from_slice(&entry);
            if is_write(&entry) {
                card.bytes[at + 2] = slots;
                slots += 1;
            }
            at += entry.len();
            card.bytes[count_at(segment)] += 1;
            card.entries += 1;
        }
        card.ends.push(at);
    }
    card
}

fn fits(entry: &[u8], at: usize, end: usize, slots: u8) -> bool {
    at + entry.len() <= end && (!is_write(entry) || slots < SLOTS)
}

fn is_write(entry: &[u8]) -> bool {
    entry[0] & !RACE == WRITE
}
