//! Entries of the log and their bytes: document 01, "Entries"; document 02, E6, E10.

use crate::limits::{BLOCKS, JOURNAL, LISTS, RACES, SLOTS};

/// A change of the state. The slot of a write is known only where it is stored, so it is no part of it.
#[derive(Clone, Copy, PartialEq, Eq, Debug)]
pub enum Change {
    /// Take a list that is not taken.
    TakeList {
        /// 1 to 16.
        list: u8,
    },
    /// Put a block at the beginning of a list.
    PutFirst {
        /// 1 to 64.
        block: u8,
        /// 1 to 16.
        list: u8,
    },
    /// Put a block behind another one of the list.
    PutAfter {
        /// 1 to 64.
        block: u8,
        /// 1 to 16.
        list: u8,
        /// 1 to 64.
        predecessor: u8,
    },
    /// Give a block other contents.
    Write {
        /// 1 to 64.
        block: u8,
        /// "A write now carries a race from 0 to 24, where 0 means none."
        race: u8,
    },
    /// Take a block off its list.
    DeleteBlock {
        /// 1 to 64.
        block: u8,
    },
    /// Give a list back, and free its blocks.
    DeleteList {
        /// 1 to 16.
        list: u8,
    },
}

impl Change {
    /// Whether its numbers are in range.
    pub fn in_range(self) -> bool {
        let block_in_range = |block: u8| (1..=BLOCKS).contains(&block);
        let list_in_range = |list: u8| (1..=LISTS).contains(&list);
        match self {
            Change::TakeList { list } | Change::DeleteList { list } => list_in_range(list),
            Change::PutFirst { block, list } => block_in_range(block) && list_in_range(list),
            Change::PutAfter {
                block,
                list,
                predecessor,
            } => block_in_range(block) && list_in_range(list) && block_in_range(predecessor),
            Change::Write { block, race } => block_in_range(block) && race <= RACES,
            Change::DeleteBlock { block } => block_in_range(block),
        }
    }

    /// Whether it needs a slot.
    pub fn is_write(self) -> bool {
        matches!(self, Change::Write { .. })
    }
}

/// An entry of the log or of the queue.
#[derive(Clone, Copy, PartialEq, Eq, Debug)]
pub enum Entry {
    /// Acts in its turn.
    Plain(Change),
    /// Acts at a commit, or never.
    Member(Change),
    /// Takes the last so many members standing directly before it.
    Commit {
        /// 0 to 15.
        members: u8,
    },
}

/// What is wrong with an entry: the parts of question 2.
#[derive(Clone, Copy, PartialEq, Eq, Debug)]
pub enum Cause {
    /// Its map is not legal.
    Map,
    /// One of its fields is out of range.
    Range,
    /// Bit 6 stands and the race byte is 0.
    Race,
    /// It doesn't end within the summary.
    Bounds,
    /// Its slot is not the next one.
    Slot,
    /// It is a commit longer than its run.
    Run,
    /// It, or a member that it commits, doesn't apply.
    Inapplicable,
    /// It stands in a used segment after an empty one.
    AfterEmpty,
}

// The bits of a map.
const BLOCK: u8 = 1 << 0;
const LIST: u8 = 1 << 1;
const PREDECESSOR: u8 = 1 << 2;
const SLOT: u8 = 1 << 3;
const COUNT: u8 = 1 << 4;
const REMOVAL: u8 = 1 << 5;
const RACE: u8 = 1 << 6;
const MEMBER: u8 = 1 << 7;
/// The bits that carry a byte each.
const FIELDS: u8 = BLOCK | LIST | PREDECESSOR | SLOT | COUNT | RACE;

// The maps of the seven kinds; that of a write with a race besides.
const TAKE_LIST: u8 = LIST;
const PUT_FIRST: u8 = BLOCK | LIST;
const PUT_AFTER: u8 = BLOCK | LIST | PREDECESSOR;
const WRITE: u8 = BLOCK | SLOT;
const WRITE_WITH_RACE: u8 = WRITE | RACE;
const DELETE_BLOCK: u8 = REMOVAL | BLOCK;
const DELETE_LIST: u8 = REMOVAL | LIST;
const COMMIT: u8 = COUNT;

// The maps of members: "map 130 becomes legal as a member".
const MEMBER_TAKE_LIST: u8 = MEMBER | TAKE_LIST;
const MEMBER_PUT_FIRST: u8 = MEMBER | PUT_FIRST;
const MEMBER_PUT_AFTER: u8 = MEMBER | PUT_AFTER;
const MEMBER_WRITE: u8 = MEMBER | WRITE;
const MEMBER_WRITE_WITH_RACE: u8 = MEMBER | WRITE_WITH_RACE;
const MEMBER_DELETE_BLOCK: u8 = MEMBER | DELETE_BLOCK;
const MEMBER_DELETE_LIST: u8 = MEMBER | DELETE_LIST;

/// The bytes of an entry as they stand in a summary.
#[derive(Clone, Copy, PartialEq, Eq, Debug)]
pub struct Encoded {
    bytes: [u8; 4],
    length: usize,
}

impl Encoded {
    /// A map, then one byte for each bit that stands, lowest bit first.
    fn new<const FIELD_COUNT: usize>(map: u8, fields: [u8; FIELD_COUNT]) -> Encoded {
        let mut encoded = Encoded {
            bytes: [map, 0, 0, 0],
            length: 1 + FIELD_COUNT,
        };
        encoded.bytes[1..=FIELD_COUNT].copy_from_slice(&fields);
        encoded
    }

    /// The bytes, lowest first.
    pub fn bytes(&self) -> &[u8] {
        &self.bytes[..self.length]
    }
}

/// An entry read from a summary.
#[derive(Clone, Copy, PartialEq, Eq, Debug)]
pub struct Decoded {
    /// The entry.
    pub entry: Entry,
    /// The slot of a write, 0 otherwise.
    pub slot: u8,
    /// Bytes that it takes.
    pub length: usize,
}

impl Decoded {
    /// The entry, if its numbers are in range.
    #[inline(always)]
    fn in_range(entry: Entry, slot: u8, length: usize) -> Result<Decoded, Cause> {
        if entry.is_legal() && slot < SLOTS {
            Ok(Decoded { entry, slot, length })
        } else {
            Err(Cause::Range)
        }
    }
}

/// "1 plus the number of ones in bits 0 to 4"; with E10 "an entry's length counts bit 6 too".
fn length_of_map(map: u8) -> usize {
    1 + (map & FIELDS).count_ones() as usize
}

impl Entry {
    /// The change of a plain entry or a member.
    pub fn change(self) -> Option<Change> {
        match self {
            Entry::Plain(change) | Entry::Member(change) => Some(change),
            Entry::Commit { .. } => None,
        }
    }

    /// Whether it needs a slot.
    pub fn is_write(self) -> bool {
        self.change().is_some_and(Change::is_write)
    }

    /// Whether its map is legal and its numbers are in range.
    #[inline(always)]
    pub fn is_legal(self) -> bool {
        match self {
            Entry::Plain(change) | Entry::Member(change) => change.in_range(),
            Entry::Commit { members } => usize::from(members) <= JOURNAL,
        }
    }

    /// Bytes that it takes in a summary.
    pub fn length(self) -> usize {
        length_of_map(self.map())
    }

    /// Its byte of bit map.
    pub fn map(self) -> u8 {
        let (change, mark) = match self {
            Entry::Plain(change) => (change, 0),
            Entry::Member(change) => (change, MEMBER),
            Entry::Commit { .. } => return COMMIT,
        };
        mark | match change {
            Change::TakeList { .. } => TAKE_LIST,
            Change::PutFirst { .. } => PUT_FIRST,
            Change::PutAfter { .. } => PUT_AFTER,
            // "Race 0 is written without it".
            Change::Write { race: 0, .. } => WRITE,
            Change::Write { .. } => WRITE_WITH_RACE,
            Change::DeleteBlock { .. } => DELETE_BLOCK,
            Change::DeleteList { .. } => DELETE_LIST,
        }
    }

    /// Its bytes; `slot` is where the data of a write stand.
    pub fn encode(self, slot: u8) -> Encoded {
        let map = self.map();
        match self {
            Entry::Commit { members } => Encoded::new(map, [members]),
            Entry::Plain(change) | Entry::Member(change) => match change {
                Change::TakeList { list } | Change::DeleteList { list } => Encoded::new(map, [list]),
                Change::PutFirst { block, list } => Encoded::new(map, [block, list]),
                Change::PutAfter {
                    block,
                    list,
                    predecessor,
                } => Encoded::new(map, [block, list, predecessor]),
                Change::Write { block, race: 0 } => Encoded::new(map, [block, slot]),
                Change::Write { block, race } => Encoded::new(map, [block, slot, race]),
                Change::DeleteBlock { block } => Encoded::new(map, [block]),
            },
        }
    }

    /// The entry at the beginning of `bytes`, which reach to the end of their summary.
    #[inline(always)]
    pub fn decode(bytes: &[u8]) -> Result<Decoded, Cause> {
        let map = *bytes.first().ok_or(Cause::Bounds)?;
        if let [COMMIT, members, ..] = *bytes {
            return Decoded::in_range(Entry::Commit { members }, 0, length_of_map(COMMIT));
        }
        let (change, slot, length) = match *bytes {
            [TAKE_LIST | MEMBER_TAKE_LIST, list, ..] => (Change::TakeList { list }, 0, length_of_map(TAKE_LIST)),
            [PUT_FIRST | MEMBER_PUT_FIRST, block, list, ..] => {
                (Change::PutFirst { block, list }, 0, length_of_map(PUT_FIRST))
            }
            [PUT_AFTER | MEMBER_PUT_AFTER, block, list, predecessor, ..] => {
                let change = Change::PutAfter {
                    block,
                    list,
                    predecessor,
                };
                (change, 0, length_of_map(PUT_AFTER))
            }
            [WRITE | MEMBER_WRITE, block, slot, ..] => (Change::Write { block, race: 0 }, slot, length_of_map(WRITE)),
            // "A race byte of 0 or above 24 is a fault in mounting"; that it is above 24 is judged with the other numbers.
            [WRITE_WITH_RACE | MEMBER_WRITE_WITH_RACE, _, _, 0, ..] => return Err(Cause::Race),
            [WRITE_WITH_RACE | MEMBER_WRITE_WITH_RACE, block, slot, race, ..] => {
                (Change::Write { block, race }, slot, length_of_map(WRITE_WITH_RACE))
            }
            [DELETE_BLOCK | MEMBER_DELETE_BLOCK, block, ..] => {
                (Change::DeleteBlock { block }, 0, length_of_map(DELETE_BLOCK))
            }
            [DELETE_LIST | MEMBER_DELETE_LIST, list, ..] => {
                (Change::DeleteList { list }, 0, length_of_map(DELETE_LIST))
            }
            _ if bytes.len() < length_of_map(map) => return Err(Cause::Bounds),
            _ => return Err(Cause::Map),
        };
        let entry = if map & MEMBER == 0 {
            Entry::Plain(change)
        } else {
            Entry::Member(change)
        };
        Decoded::in_range(entry, slot, length)
    }
}

#[cfg(test)]
mod tests {
    use super::*;

    /// "Each entry is one of seven kinds with its own fields", and members have 128 more.
    #[test]
    fn maps_are_those_of_the_table() {
        let (block, list, predecessor) = (64, 16, 1);
        let changes = [
            (Change::TakeList { list }, 2, vec![16]),
            (Change::PutFirst { block, list }, 3, vec![64, 16]),
            (
                Change::PutAfter {
                    block,
                    list,
                    predecessor,
                },
                7,
                vec![64, 16, 1],
            ),
            (Change::Write { block, race: 0 }, 9, vec![64, 13]),
            (Change::Write { block, race: 1 }, 73, vec![64, 13, 1]),
            (Change::Write { block, race: 24 }, 73, vec![64, 13, 24]),
            (Change::DeleteBlock { block }, 33, vec![64]),
            (Change::DeleteList { list }, 34, vec![16]),
        ];
        for (change, map, fields) in changes {
            let bytes_of = |map: u8| [vec![map], fields.clone()].concat();
            assert_round_trip(Entry::Plain(change), &bytes_of(map));
            assert_round_trip(Entry::Member(change), &bytes_of(map + 128));
        }
        assert_round_trip(Entry::Commit { members: 15 }, &[16, 15]);
        assert_eq!(Entry::decode(&[144, 15]), Err(Cause::Map));
    }

    fn assert_round_trip(entry: Entry, bytes: &[u8]) {
        assert_eq!(entry.encode(13).bytes(), bytes);
        assert_eq!(entry.length(), bytes.len());
        let decoded = Entry::decode(bytes).expect("the bytes are an entry");
        assert_eq!((decoded.entry, decoded.length), (entry, bytes.len()));
        assert_eq!(decoded.slot, if entry.is_write() { 13 } else { 0 });
        for length in 0..bytes.len() {
            assert_eq!(Entry::decode(&bytes[..length]), Err(Cause::Bounds));
        }
    }

    /// "A race byte of 0 or above 24 is a fault in mounting."
    #[test]
    fn races_are_from_1_to_24() {
        for map in [73, 201] {
            let is_legal = |&race: &u8| Entry::decode(&[map, 1, 0, race]).is_ok();
            let legal: Vec<u8> = (0..=255).filter(is_legal).collect();
            assert_eq!(legal, (1..=24).collect::<Vec<u8>>());
        }
        assert!(Change::Write { block: 1, race: 24 }.in_range());
        assert!(!Change::Write { block: 1, race: 25 }.in_range());
    }

    /// "List 1 to 16", of a member too.
    #[test]
    fn lists_taken_are_from_1_to_16() {
        for map in [2, 130] {
            let is_legal = |&list: &u8| Entry::decode(&[map, list]).is_ok();
            let legal: Vec<u8> = (0..=255).filter(is_legal).collect();
            assert_eq!(legal, (1..=16).collect::<Vec<u8>>());
        }
    }

    #[test]
    fn only_fifteen_maps_are_legal() {
        let is_legal = |&map: &u8| Entry::decode(&[map, 1, 1, 1, 1, 1]).is_ok();
        let legal: Vec<u8> = (0..=255).filter(is_legal).collect();
        assert_eq!(legal, [2, 3, 7, 9, 16, 33, 34, 73, 130, 131, 135, 137, 161, 162, 201]);
    }
}
