//! The record that is lent to every call: the queue, the journals, the numbers held and free, the windows' conflicts.

use crate::entry::{Change, Entry};
use crate::free::{Free, Order};
use crate::limits::{BLOCKS, BLOCK_BYTES, JOURNAL, LISTS, QUEUE, SEGMENT_BYTES, UNITS, WINDOWS};
use crate::log::{stores_of, Log, Stores};
use crate::state::{Content, Reading, State};

/// A set of block numbers, or of list numbers.
#[derive(Clone, Copy, PartialEq, Eq, Debug)]
pub struct NumberSet(u64);

impl NumberSet {
    /// No number.
    pub const EMPTY: NumberSet = NumberSet(0);

    fn bit(number: u8) -> u64 {
        1 << (number - 1)
    }

    /// Adds `number`, 1 to 64.
    pub fn add(&mut self, number: u8) {
        self.0 |= NumberSet::bit(number);
    }

    /// Whether it has `number`, 1 to 64.
    pub fn has(self, number: u8) -> bool {
        self.0 & NumberSet::bit(number) != 0
    }

    /// Whether it has a number that `other` has.
    pub fn meets(self, other: NumberSet) -> bool {
        self.0 & other.0 != 0
    }

    /// The numbers of both.
    pub fn union(self, other: NumberSet) -> NumberSet {
        NumberSet(self.0 | other.0)
    }

    /// The numbers of all; None if one of them is in two.
    fn union_of_apart(sets: impl Iterator<Item = NumberSet>) -> Option<NumberSet> {
        let mut union = NumberSet::EMPTY;
        for set in sets {
            if set.meets(union) {
                return None;
            }
            union = union.union(set);
        }
        Some(union)
    }
}

/// An atomic recovery unit.
#[derive(Clone, Copy, PartialEq, Eq, Debug)]
pub struct Unit {
    /// Whether it has begun and not ended.
    pub is_open: bool,
    /// The window that its Begin named; of a closed unit it says nothing.
    pub window: u8,
    journal: [Change; JOURNAL],
    journal_length: u8,
    /// Blocks made in it: "A block made in a unit is held by it until it ends."
    pub held_blocks: NumberSet,
    /// Lists taken in it: "the number is held by the unit and so free for no stream".
    pub held_lists: NumberSet,
}

impl Unit {
    /// A unit that is closed: its journal is empty and it holds nothing.
    pub const CLOSED: Unit = Unit {
        is_open: false,
        window: 0,
        journal: [Change::TakeList { list: 1 }; JOURNAL],
        journal_length: 0,
        held_blocks: NumberSet::EMPTY,
        held_lists: NumberSet::EMPTY,
    };

    /// Its changes in order.
    pub fn journal(&self) -> &[Change] {
        &self.journal[..usize::from(self.journal_length)]
    }

    /// Adds a change; question 11 has been asked.
    pub fn add(&mut self, change: Change) {
        self.journal[usize::from(self.journal_length)] = change;
        self.journal_length += 1;
    }

    /// Makes the journal of unit `number` act on the committed state, what doesn't apply left out. Says whether all
    /// of it applied.
    pub fn replay(&self, number: u8, committed: &mut State) -> bool {
        let mut all_apply = true;
        for (entry, &change) in self.journal().iter().enumerate() {
            let content = Content::Journal {
                unit: number,
                entry: entry as u8,
            };
            all_apply &= committed.apply(change, content);
        }
        all_apply
    }

    /// Its part of question 3; every change has a member map (document 02, E6).
    fn is_sound(&self) -> bool {
        usize::from(self.journal_length) <= JOURNAL
            && match self.is_open {
                true => (1..=WINDOWS).contains(&self.window),
                false => self.journal_length == 0 && self.holds_nothing(),
            }
            && self
                .journal()
                .iter()
                .all(|&change| change.in_range() && self.holds_what_is_made(change))
    }

    fn holds_nothing(&self) -> bool {
        self.held_blocks == NumberSet::EMPTY && self.held_lists == NumberSet::EMPTY
    }

    /// "Each block a journal puts held by that unit", and "each list a journal takes is held by that unit".
    fn holds_what_is_made(&self, change: Change) -> bool {
        match change {
            Change::PutFirst { block, .. } | Change::PutAfter { block, .. } => self.held_blocks.has(block),
            Change::TakeList { list } => self.held_lists.has(list),
            _ => true,
        }
    }
}

/// The record. A caller gets one from [`Record::FRESH`] and lends it to every call.
#[derive(Clone, Copy, PartialEq, Eq, Debug)]
pub struct Record {
    /// The queue's entries, each in its place of the ring.
    queue: [Entry; QUEUE],
    queue_length: u8,
    /// The place of the head.
    head: u8,
    /// Stores of the head that are done.
    done: u16,
    units: [Unit; UNITS as usize],
    /// The free numbers: in no use in the committed state, and held by no unit.
    pub free: Free,
    /// Of windows 1 to 16: "Each window has its own count, which stops at 65,535 and is 0 after mounting."
    pub conflicts: [u16; WINDOWS as usize],
}

/// The versions of the state that every unit shares.
#[derive(Clone, Copy, Debug)]
pub struct Versions {
    /// The log, whose state is the persistent one.
    pub log: Log,
    /// The state of the log followed by the queue.
    pub committed: State,
}

impl Record {
    /// As formatting sets it.
    pub const FRESH: Record = Record::over(Free::NEVER_USED);

    /// A record that question 3 refuses on every card: a number is listed twice.
    pub const UNSOUND: Record = Record::over(Free {
        blocks: Order::listing(&[1, 1]),
        lists: Order::listing(&[1, 1]),
    });

    /// As mounting sets it over a log that shows these free numbers: "queue empty, units closed, nothing held".
    pub const fn over(free: Free) -> Record {
        Record {
            queue: [Entry::Commit { members: 0 }; QUEUE],
            queue_length: 0,
            head: 0,
            done: 0,
            units: [Unit::CLOSED; UNITS as usize],
            free,
            conflicts: [0; WINDOWS as usize],
        }
    }

    /// Unit `number`, 1 to 4.
    pub fn unit(&self, number: u8) -> &Unit {
        &self.units[usize::from(number) - 1]
    }

    /// Unit `number`, 1 to 4, to be changed.
    pub fn unit_mut(&mut self, number: u8) -> &mut Unit {
        &mut self.units[usize::from(number) - 1]
    }

    /// The conflict count of `window`, 1 to 16.
    pub fn conflicts_of(&self, window: u8) -> u16 {
        self.conflicts[usize::from(window) - 1]
    }

    /// The conflict count of `window`, 1 to 16, rises by one or stays where it stops.
    pub fn count_conflict(&mut self, window: u8) {
        let count = &mut self.conflicts[usize::from(window) - 1];
        *count = count.saturating_add(1);
    }

    /// Blocks that open units hold.
    pub fn held_blocks(&self) -> NumberSet {
        let held = self.units.iter().map(|unit| unit.held_blocks);
        held.fold(NumberSet::EMPTY, NumberSet::union)
    }

    /// Lists that open units hold.
    pub fn held_lists(&self) -> NumberSet {
        let held = self.units.iter().map(|unit| unit.held_lists);
        held.fold(NumberSet::EMPTY, NumberSet::union)
    }

    /// A unit has closed: the numbers that it held become free "ascending", but those that the committed state uses now and
    /// those that are listed already: "one that its commit put or took and also freed counts as freed there".
    pub fn release(&mut self, unit: &Unit, committed: &State) {
        for block in (1..=BLOCKS).filter(|&block| unit.held_blocks.has(block)) {
            if !committed.is_on_a_list(block) && !self.free.blocks.has(block) {
                self.free.blocks.add(block);
            }
        }
        for list in (1..=LISTS).filter(|&list| unit.held_lists.has(list)) {
            if !committed.is_taken(list) && !self.free.lists.has(list) {
                self.free.lists.add(list);
            }
        }
    }

    /// Entries in the queue.
    pub fn queue_length(&self) -> usize {
        usize::from(self.queue_length)
    }

    /// The entries of the queue, the head first.
    pub fn queue(&self) -> impl Iterator<Item = Entry> + '_ {
        (0..self.queue_length()).map(|number| self.queue[self.place(number)])
    }

    /// Entries that the queue still takes.
    pub fn queue_room(&self) -> usize {
        QUEUE - self.queue_length()
    }

    /// The place in the ring of the queue's entry `number`, from 0 at the head.
    fn place(&self, number: usize) -> usize {
        (usize::from(self.head) + number) % QUEUE
    }

    /// The place in the ring of the head.
    pub fn head_place(&self) -> usize {
        self.place(0)
    }

    /// The head, the entry that is drained first.
    pub fn head(&self) -> Option<Entry> {
        (self.queue_length > 0).then_some(self.queue[self.place(0)])
    }

    /// Stores of the head that are done.
    pub fn done(&self) -> usize {
        usize::from(self.done)
    }

    /// Notes how many stores of the head are done.
    pub fn set_done(&mut self, done: usize) {
        self.done = done as u16;
    }

    /// Adds an entry to the queue and returns its place; question 13 has been asked.
    pub fn enqueue(&mut self, entry: Entry) -> usize {
        let place = self.place(self.queue_length());
        self.queue[place] = entry;
        self.queue_length += 1;
        place
    }

    /// The head leaves the queue.
    pub fn drop_head(&mut self) {
        self.head = self.place(1) as u8;
        self.queue_length -= 1;
        self.done = 0;
    }

    /// Question 3: whether the record is sound over this card and these queue data. If so, the versions.
    pub fn judge(&self, card: &[u8], queue_data: &[u8]) -> Option<Versions> {
        if !self.has_sound_numbers() || !self.units.iter().all(Unit::is_sound) {
            return None;
        }
        let log = Log::read(card).ok()?;
        let committed = self.read_queue(log.reading)?;
        let is_sound = self.done_stands(card, queue_data, &log)
            && self.has_sound_holders(&committed)
            && self.lists_what_is_free(&committed);
        is_sound.then_some(Versions { log, committed })
    }

    /// "Counts and numbers in range."
    fn has_sound_numbers(&self) -> bool {
        self.queue_length() <= QUEUE && usize::from(self.head) < QUEUE
    }

    /// "Card acceptable followed by the queue": the committed state, if it is.
    fn read_queue(&self, mut reading: Reading) -> Option<State> {
        for number in 0..self.queue_length() {
            let place = self.place(number);
            let entry = self.queue[place];
            if !entry.is_legal() {
                return None;
            }
            let content = Content::Queue { place: place as u8 };
            reading.read(entry, content).ok()?;
        }
        Some(reading.state)
    }

    /// "Stores already done of the head (none if it has no place) standing on the card."
    fn done_stands(&self, card: &[u8], queue_data: &[u8], log: &Log) -> bool {
        if self.done == 0 {
            return true;
        }
        let Some(head) = self.head() else {
            return false;
        };
        let Some(place) = log.end.place(head, card.len() / SEGMENT_BYTES) else {
            return false;
        };
        let data = &queue_data[self.head_place() * BLOCK_BYTES..][..BLOCK_BYTES];
        let stores = Stores::new(head, place, data);
        self.done() < stores_of(head)
            && (0..self.done()).all(|number| {
                let store = stores.nth(number);
                card[store.at] == store.byte
            })
    }

    /// "Held blocks on no committed list and held once"; "a held list number is not taken in the committed state and is
    /// held once".
    fn has_sound_holders(&self, committed: &State) -> bool {
        let blocks = NumberSet::union_of_apart(self.units.iter().map(|unit| unit.held_blocks));
        let lists = NumberSet::union_of_apart(self.units.iter().map(|unit| unit.held_lists));
        let (Some(blocks), Some(lists)) = (blocks, lists) else {
            return false;
        };
        (1..=BLOCKS).all(|block| !(blocks.has(block) && committed.is_on_a_list(block)))
            && (1..=LISTS).all(|list| !(lists.has(list) && committed.is_taken(list)))
    }

    /// "Question 3 wants each free number and no other listed, once, and believes their order."
    fn lists_what_is_free(&self, committed: &State) -> bool {
        let (held_blocks, held_lists) = (self.held_blocks(), self.held_lists());
        let is_free_block = |block| !committed.is_on_a_list(block) && !held_blocks.has(block);
        let is_free_list = |list| !committed.is_taken(list) && !held_lists.has(list);
        self.free.blocks.lists_what_is_free(is_free_block) && self.free.lists.lists_what_is_free(is_free_list)
    }
}
