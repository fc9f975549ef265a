//! What a state is and how entries act on it: document 01, "What a state is", and document 02, E4: a block has a content
//! only if it was "written since its present put"; E10: with it stands the race "for which [..] a pool block was last
//! written"; E11: the order in which numbers came to be free.

use crate::entry::{Change, Entry};
use crate::free::Free;
use crate::limits::{BLOCKS, JOURNAL, LISTS};

/// Where the 256 bytes that a write brings stand.
#[derive(Clone, Copy, PartialEq, Eq, Debug)]
pub enum Content {
    /// A slot of the card.
    Slot {
        /// From 0.
        segment: u8,
        /// From 0.
        slot: u8,
    },
    /// A place of the queue data.
    Queue {
        /// From 0.
        place: u8,
    },
    /// A place of the journal data.
    Journal {
        /// The unit, from 1.
        unit: u8,
        /// The number of the entry in its journal, from 0.
        entry: u8,
    },
}

/// What the last write of a block brought.
#[derive(Clone, Copy, PartialEq, Eq, Debug)]
pub struct Written {
    /// Where its bytes stand.
    pub content: Content,
    /// Its race, 0 if it has none.
    pub race: u8,
}

/// The lists taken, the blocks on each in order, and what was last written to each of these blocks that is written.
///
/// Tables have one element for each number and one for number 0, which means "none".
#[derive(Clone, Copy, Debug)]
pub struct State {
    /// The lists taken, in the order of their taking.
    taken: [u8; LISTS as usize],
    /// How many of `taken` count.
    taken_count: u8,
    /// Whether a list is taken.
    is_taken: [bool; LISTS as usize + 1],
    /// The first block of a list, 0 if it has none.
    first: [u8; LISTS as usize + 1],
    /// The block after a block on the same list, 0 at the end.
    next: [u8; BLOCKS as usize + 1],
    /// The list that a block is on, 0 if it is on none.
    list_of: [u8; BLOCKS as usize + 1],
    /// What was last written to a block that is on a list, none if it was not written since its put.
    written: [Option<Written>; BLOCKS as usize + 1],
    /// The numbers that it doesn't use, in the order of their freeing as the entries that made it show it.
    pub free: Free,
}

impl State {
    /// No list is taken.
    pub const EMPTY: State = State {
        taken: [0; LISTS as usize],
        taken_count: 0,
        is_taken: [false; LISTS as usize + 1],
        first: [0; LISTS as usize + 1],
        next: [0; BLOCKS as usize + 1],
        list_of: [0; BLOCKS as usize + 1],
        written: [None; BLOCKS as usize + 1],
        free: Free::NEVER_USED,
    };

    /// The lists taken, in the order of their taking.
    pub fn lists(&self) -> &[u8] {
        &self.taken[..usize::from(self.taken_count)]
    }

    /// Whether `list`, 1 to 16, is taken.
    pub fn is_taken(&self, list: u8) -> bool {
        self.is_taken[usize::from(list)]
    }

    /// The list that `block`, 1 to 64, is on.
    pub fn list_of(&self, block: u8) -> Option<u8> {
        match self.list_of[usize::from(block)] {
            0 => None,
            list => Some(list),
        }
    }

    /// Whether `block`, 1 to 64, is on some list.
    pub fn is_on_a_list(&self, block: u8) -> bool {
        self.list_of(block).is_some()
    }

    /// What was last written to `block`, 1 to 64, if it is on some list and was "written since its present put".
    pub fn written(&self, block: u8) -> Option<Written> {
        self.written[usize::from(block)].filter(|_| self.is_on_a_list(block))
    }

    /// The block after `predecessor` on `list`; predecessor 0 asks for the first, and 0 is the end.
    pub fn block_after(&self, list: u8, predecessor: u8) -> u8 {
        if predecessor == 0 {
            self.first[usize::from(list)]
        } else {
            self.next[usize::from(predecessor)]
        }
    }

    /// The blocks on `list` in order.
    pub fn blocks_on(&self, list: u8) -> impl Iterator<Item = u8> + '_ {
        let mut block = 0;
        std::iter::from_fn(move || {
            block = self.block_after(list, block);
            (block != 0).then_some(block)
        })
    }

    /// Makes `change`, with the content that it brings if it is a write. Says whether it applies; if not, nothing changes.
    #[must_use]
    pub fn apply(&mut self, change: Change, content: Content) -> bool {
        match change {
            Change::TakeList { list } => {
                let applies = !self.is_taken(list);
                if applies {
                    self.take(list);
                }
                applies
            }
            Change::PutFirst { block, list } => {
                let applies = self.is_taken(list) && !self.is_on_a_list(block);
                if applies {
                    self.put(block, list, 0);
                }
                applies
            }
            Change::PutAfter {
                block,
                list,
                predecessor,
            } => {
                let applies =
                    self.is_taken(list) && !self.is_on_a_list(block) && self.list_of(predecessor) == Some(list);
                if applies {
                    self.put(block, list, predecessor);
                }
                applies
            }
            Change::Write { block, race } => {
                let applies = self.is_on_a_list(block);
                if applies {
                    self.written[usize::from(block)] = Some(Written { content, race });
                }
                applies
            }
            Change::DeleteBlock { block } => {
                let list = self.list_of(block);
                if let Some(list) = list {
                    self.delete_block(block, list);
                }
                list.is_some()
            }
            Change::DeleteList { list } => {
                let applies = self.is_taken(list);
                if applies {
                    self.delete_list(list);
                }
                applies
            }
        }
    }

    fn take(&mut self, list: u8) {
        self.taken[usize::from(self.taken_count)] = list;
        self.taken_count += 1;
        self.is_taken[usize::from(list)] = true;
        self.first[usize::from(list)] = 0;
        self.free.lists.remove(list);
    }

    fn put(&mut self, block: u8, list: u8, predecessor: u8) {
        self.next[usize::from(block)] = self.block_after(list, predecessor);
        self.set_block_after(list, predecessor, block);
        self.list_of[usize::from(block)] = list;
        self.written[usize::from(block)] = None;
        self.free.blocks.remove(block);
    }

    fn delete_block(&mut self, block: u8, list: u8) {
        let mut predecessor = 0;
        while self.block_after(list, predecessor) != block {
            predecessor = self.block_after(list, predecessor);
        }
        self.set_block_after(list, predecessor, self.next[usize::from(block)]);
        self.list_of[usize::from(block)] = 0;
        self.free.blocks.add(block);
    }

    /// "Deleting a list frees its blocks too"; they "count in list order".
    fn delete_list(&mut self, list: u8) {
        let mut block = self.first[usize::from(list)];
        while block != 0 {
            self.list_of[usize::from(block)] = 0;
            self.free.blocks.add(block);
            block = self.next[usize::from(block)];
        }
        self.is_taken[usize::from(list)] = false;
        self.free.lists.add(list);
        if let Some(position) = self.lists().iter().position(|&taken| taken == list) {
            let count = usize::from(self.taken_count);
            self.taken.copy_within(position + 1..count, position);
            self.taken_count -= 1;
        }
    }

    fn set_block_after(&mut self, list: u8, predecessor: u8, block: u8) {
        if predecessor == 0 {
            self.first[usize::from(list)] = block;
        } else {
            self.next[usize::from(predecessor)] = block;
        }
    }
}

/// The members standing directly before the reader. A commit takes at most the last 15, so no more are kept.
#[derive(Clone, Copy, Debug)]
pub struct Run {
    /// The members of the run, the one numbered n from 0 at n modulo 15.
    last: [(Change, Content); JOURNAL],
    length: usize,
}

impl Run {
    /// A run without members.
    pub const EMPTY: Run = Run {
        last: [(Change::TakeList { list: 1 }, Content::Queue { place: 0 }); JOURNAL],
        length: 0,
    };

    /// How many members it has.
    pub fn length(&self) -> usize {
        self.length
    }

    fn add(&mut self, change: Change, content: Content) {
        self.last[self.length % JOURNAL] = (change, content);
        self.length += 1;
    }

    fn member(&self, number: usize) -> (Change, Content) {
        self.last[number % JOURNAL]
    }
}

/// A state and the run of members that has not yet acted on it: what a reader of entries has come to.
#[derive(Clone, Copy, Debug)]
pub struct Reading {
    /// What the entries read so far have made.
    pub state: State,
    /// The members standing directly before the reader.
    pub run: Run,
}

/// Why an entry cannot be read on.
#[derive(Clone, Copy, PartialEq, Eq, Debug)]
pub enum Stop {
    /// A commit is longer than its run.
    Run,
    /// A plain entry, or a member taken by a commit, doesn't apply.
    Inapplicable,
}

impl Reading {
    /// Nothing has been read.
    pub const START: Reading = Reading {
        state: State::EMPTY,
        run: Run::EMPTY,
    };

    /// Reads one more entry: "Plain entries act in turn. Members act only at a commit, which takes the last so many
    /// members standing directly before it, in their order; earlier members of that run are dead. So is a run followed
    /// by a plain entry".
    pub fn read(&mut self, entry: Entry, content: Content) -> Result<(), Stop> {
        match entry {
            Entry::Plain(change) => {
                self.run.length = 0;
                self.act(change, content)
            }
            Entry::Member(change) => {
                self.run.add(change, content);
                Ok(())
            }
            Entry::Commit { members } => {
                let length = self.run.length;
                let first = length.checked_sub(usize::from(members)).ok_or(Stop::Run)?;
                for number in first..length {
                    let (change, content) = self.run.member(number);
                    self.act(change, content)?;
                }
                self.run.length = 0;
                Ok(())
            }
        }
    }

    fn act(&mut self, change: Change, content: Content) -> Result<(), Stop> {
        if self.state.apply(change, content) {
            Ok(())
        } else {
            Err(Stop::Inapplicable)
        }
    }
}
