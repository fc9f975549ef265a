//! Arguments of calls: most of the time numbers that exist, now and then numbers that don't, and numbers so large
//! that they exist only if cut.

use super::Generator;
use crate::limits::{BLOCKS, BLOCK_BYTES, LISTS, UNITS};
use crate::record::Record;
use crate::state::State;

/// Numbers at the borders of ranges and types.
const BORDERS: &[u64] = &[
    0,
    5,
    6,
    15,
    16,
    17,
    32,
    33,
    64,
    65,
    66,
    127,
    128,
    255,
    256,
    65_535,
    65_536,
    1 << 31,
    1 << 32,
    1 << 63,
    u64::MAX,
];

impl Generator<'_> {
    /// A number that is out of most ranges: at a border, or one that exists with higher bits set.
    pub(super) fn strange_number(&mut self) -> u64 {
        if self.random.chance(50) {
            return self.random.pick(BORDERS);
        }
        let small = self.random.below(u64::from(BLOCKS) + 1);
        small + (1 << self.random.pick(&[8, 16, 24, 31, 32, 48, 63]))
    }

    /// Whether an argument is to be wrong: seldom, but often in calls that are to be wrong in several ways.
    pub(super) fn is_wrong(&mut self) -> bool {
        self.random.chance(self.wrong_arguments)
    }

    /// One of `numbers`, or one that is strange.
    fn wrong_number(&mut self, numbers: &[u64]) -> u64 {
        let strange_number = self.strange_number();
        let number = self.random.pick(numbers);
        self.random.pick(&[number, number, number, strange_number])
    }

    /// A stream: 0 or an open unit; sometimes a closed unit, 5 or what is no stream at all.
    pub(super) fn stream(&mut self) -> u64 {
        if self.is_wrong() {
            let any_unit = self.random.between(1, u64::from(UNITS));
            return self.wrong_number(&[any_unit, 5, 6]);
        }
        match self.random.below(100) {
            0..=44 => 0,
            45..=93 => {
                let units = self.units(true);
                self.random.pick_if_any(&units).unwrap_or(0)
            }
            94..=96 => self.random.between(1, u64::from(UNITS)),
            97 => 5,
            _ => self.strange_number(),
        }
    }

    /// A view: a stream, or 5, the persistent one.
    pub(super) fn view(&mut self) -> u64 {
        if self.random.chance(20) {
            5
        } else {
            self.stream()
        }
    }

    /// A unit's number for Begin or End, most of the time one that is open or one that is closed.
    pub(super) fn unit(&mut self, is_open: bool) -> u64 {
        if self.is_wrong() {
            let any_unit = self.random.between(1, u64::from(UNITS));
            return self.wrong_number(&[0, any_unit, 5]);
        }
        let units = self.units(is_open);
        match self.random.below(20) {
            0..=16 => self.random.pick_if_any(&units).unwrap_or(1),
            17..=18 => self.random.between(0, u64::from(UNITS) + 1),
            _ => self.strange_number(),
        }
    }

    /// A list, most of the time one that is taken.
    pub(super) fn list(&mut self, state: Option<&State>) -> u64 {
        if self.is_wrong() {
            let any_list = self.random.between(1, u64::from(LISTS));
            return self.wrong_number(&[0, any_list, u64::from(LISTS) + 1]);
        }
        let taken = state.map_or(&[][..], State::lists);
        match self.random.below(100) {
            0..=89 if !taken.is_empty() => u64::from(self.random.pick(taken)),
            0..=97 => self.random.between(1, u64::from(LISTS)),
            _ => self.strange_number(),
        }
    }

    /// A block, most of the time one that is on a list.
    pub(super) fn block(&mut self, state: Option<&State>) -> u64 {
        if self.is_wrong() {
            let any_block = self.random.between(1, u64::from(BLOCKS));
            return self.wrong_number(&[0, any_block, u64::from(BLOCKS) + 1]);
        }
        let blocks = state.map(blocks_of).unwrap_or_default();
        match self.random.below(100) {
            0..=89 if !blocks.is_empty() => u64::from(self.random.pick(&blocks)),
            0..=94 => u64::from(self.block_freed_last()),
            95..=97 => self.random.between(1, u64::from(BLOCKS)),
            _ => self.strange_number(),
        }
    }

    /// The free block that comes last.
    fn block_freed_last(&self) -> u8 {
        self.shell.record().free.blocks.listed().last().copied().unwrap_or(1)
    }

    /// A block, now and then one that is unwritten in the view.
    pub(super) fn block_to_read(&mut self, state: Option<&State>) -> u64 {
        let unwritten = state.map(unwritten_of).unwrap_or_default();
        match self.random.pick_if_any(&unwritten) {
            Some(block) if self.random.chance(30) => u64::from(block),
            _ => self.block(state),
        }
    }

    /// A predecessor: 0, or most of the time a block on that list.
    pub(super) fn predecessor(&mut self, state: Option<&State>, list: u64) -> u64 {
        if self.is_wrong() {
            let any_block = self.random.between(1, u64::from(BLOCKS));
            return self.wrong_number(&[any_block, u64::from(BLOCKS) + 1]);
        }
        let blocks = match (state, u8::try_from(list)) {
            (Some(state), Ok(list @ 1..=LISTS)) if state.is_taken(list) => state.blocks_on(list).collect(),
            _ => Vec::new(),
        };
        match self.random.below(100) {
            0..=34 => 0,
            35..=91 => self.random.pick_if_any(&blocks).map_or(0, u64::from),
            92..=97 => self.block(state),
            _ => self.strange_number(),
        }
    }

    /// The data of a write as HEX: none, a few bytes, or all of them.
    pub(super) fn hex(&mut self) -> String {
        let bytes = match self.random.below(20) {
            0 => return "-".to_string(),
            1 => return "00".repeat(self.random.between(1, BLOCK_BYTES as u64) as usize),
            2..=14 => self.random.between(1, 4),
            15..=16 => self.random.between(1, BLOCK_BYTES as u64),
            _ => BLOCK_BYTES as u64,
        };
        let is_upper = self.random.chance(10);
        let ends_in_zeros = self.random.chance(10);
        let mut digits = String::new();
        for number in 0..bytes {
            let byte = if ends_in_zeros && number > bytes / 2 {
                0
            } else {
                self.random.byte()
            };
            digits += &if is_upper {
                format!("{byte:02X}")
            } else {
                format!("{byte:02x}")
            };
        }
        digits
    }

    /// How many bytes are lent to `write`, `read` or `inventory`: nothing said, most of the time.
    pub(super) fn part(&mut self, right: u64) -> String {
        if self.is_wrong() {
            return format!(" {}", self.random.pick(&[0, right - 1, right + 1, 300]));
        }
        match self.random.below(100) {
            0..=92 => String::new(),
            93..=95 => format!(" {right}"),
            96 => format!(" {}", right - 1),
            97 => format!(" {}", right + 1),
            98 => format!(" {}", self.random.below(303)),
            _ => format!(" {}", self.strange_number()),
        }
    }

    /// An allowance: at the end of an entry or of its parts, one less, one more, or any.
    pub(super) fn allowance(&mut self) -> u64 {
        if self.is_wrong() {
            return self.wrong_number(&[65_536, 65_537]);
        }
        match self.random.below(100) {
            0..=34 => {
                let step = self.stores_to_a_step();
                let shift = self.random.below(3);
                (step + shift).saturating_sub(1)
            }
            35..=44 => self.random.below(8),
            45..=64 => self.random.below(700),
            65..=96 => 65_535,
            97 => 65_536,
            98 => 65_536 + self.random.below(300),
            _ => self.strange_number(),
        }
    }

    /// Stores until an entry of the queue is stored, or until its data are.
    fn stores_to_a_step(&mut self) -> u64 {
        let record = *self.shell.record();
        let entries = self.random.below(record.queue_length() as u64 + 1) as usize;
        let to_entry = stores_of_queue(&record, entries);
        let to_data = to_entry + BLOCK_BYTES;
        let step = if self.random.chance(30) { to_data } else { to_entry };
        step.saturating_sub(record.done()) as u64
    }
}

/// Stores of the first `entries` entries of the queue, from their beginnings.
pub(super) fn stores_of_queue(record: &Record, entries: usize) -> usize {
    record.queue().take(entries).map(crate::log::stores_of).sum()
}

/// The blocks on lists.
pub(super) fn blocks_of(state: &State) -> Vec<u8> {
    (1..=BLOCKS).filter(|&block| state.is_on_a_list(block)).collect()
}

/// The blocks on lists that were not written since their put.
fn unwritten_of(state: &State) -> Vec<u8> {
    let mut blocks = blocks_of(state);
    blocks.retain(|&block| state.written(block).is_none());
    blocks
}
