//! The calls: document 01, "The calls", "Flush" and "The questions, in order"; document 02, E1, E4, E6, E7, E10,
//! E11.
//!
//! Each call asks its questions in the order of their numbers and returns the first that is answered no; "a call
//! passes over what it doesn't use". Numbers come as wide as a caller may write them and are never cut.

use crate::entry::{Change, Entry};
use crate::free::Order;
use crate::limits::{
    ALLOWANCE, BLOCKS, BLOCK_BYTES, JOURNAL, JOURNAL_BYTES, LISTS, QUEUE_BYTES, RACES, SEGMENT_BYTES, UNITS, WINDOWS,
};
use crate::log::{self, Fault, Log, Stores};
use crate::page;
use crate::record::{Record, Unit, Versions};
use crate::state::{Content, State};

/// The question that was answered no, for every call but mounting.
#[derive(Clone, Copy, PartialEq, Eq, Debug)]
pub enum Refusal {
    /// The lent length of card, queue data or journal data is not right.
    Lengths = 1,
    /// The record is not sound.
    Record = 3,
    /// The stream or view is not open or not known.
    Stream = 4,
    /// A number is out of range, or a lent part has not the right length.
    Range = 5,
    /// The unit is open already.
    Begun = 6,
    /// The list is not taken in the view.
    List = 7,
    /// The block is on no list in the view.
    Block = 8,
    /// The predecessor is not on that list.
    Predecessor = 9,
    /// No number is free.
    NoneFree = 10,
    /// The journal has 15 entries.
    JournalFull = 11,
    /// An entry of the journal doesn't apply.
    Conflict = 12,
    /// The queue doesn't take what is added.
    QueueFull = 13,
    /// The buffer is shorter than the page.
    Page = 14,
    /// The block was not written since its present put.
    Unwritten = 15,
}

impl Refusal {
    /// The number of the question.
    pub fn number(self) -> u8 {
        self as u8
    }
}

/// The question that was answered no in mounting.
#[derive(Clone, Copy, PartialEq, Eq, Debug)]
pub enum MountRefusal {
    /// Question 1.
    Lengths,
    /// Question 2, with the first fault of the log.
    Log(Fault),
}

/// How a flush ended.
#[derive(Clone, Copy, PartialEq, Eq, Debug)]
pub enum Ending {
    /// The queue is empty.
    Drained,
    /// The head is not begun, and there is no place for it.
    Full,
    /// The allowance is used.
    Spent,
}

/// What a flush reports.
#[derive(Clone, Copy, PartialEq, Eq, Debug)]
pub struct Flushed {
    /// Stores done by this flush.
    pub stores: u32,
    /// How it ended.
    pub ending: Ending,
}

/// Views other than a unit's.
const COMMITTED: u64 = 0;
const PERSISTENT: u64 = 5;

/// What every call is lent.
pub struct Lent<'a> {
    /// 1 to 64 segments of 4,096 bytes.
    pub card: &'a mut [u8],
    /// 8,192 bytes.
    pub queue_data: &'a mut [u8],
    /// 15,360 bytes.
    pub journal_data: &'a mut [u8],
    /// Set anew by formatting and mounting.
    pub record: &'a mut Record,
}

/// Where a change goes.
#[derive(Clone, Copy)]
enum Stream {
    /// Stream 0: queued as a plain entry.
    Simple,
    /// Streams 1 to 4: journalled.
    Unit(u8),
}

impl Lent<'_> {
    // ---- Formatting and mounting -------------------------------------------------------------------------------

    /// Formatting. Asks 1.
    pub fn format(&mut self) -> Result<(), Refusal> {
        let segments = self.lengths()?;
        log::format(self.card, segments);
        *self.record = Record::FRESH;
        Ok(())
    }

    /// A formatting that the power leaves after `stores` of its stores; returns how many were done. Asks 1.
    pub fn format_cut(&mut self, stores: u64) -> Result<u64, Refusal> {
        let segments = self.lengths()?;
        let stores = stores.min(segments as u64);
        log::format(self.card, stores as usize);
        Ok(stores)
    }

    /// Mounting: "the log's order of freeing counts and holds that no acting entry shows are forgotten". Asks 1, 2.
    pub fn mount(&mut self) -> Result<(), MountRefusal> {
        self.lengths().map_err(|_| MountRefusal::Lengths)?;
        let log = Log::read(self.card).map_err(MountRefusal::Log)?;
        *self.record = Record::over(log.reading.state.free);
        Ok(())
    }

    // ---- Changes -----------------------------------------------------------------------------------------------

    /// NewList: takes a free list and returns its number. Asks 1, 3, 4, 10, then 11 in a unit or 13 on stream 0.
    ///
    /// "NewList inside a unit is journalled like everything else [..], the number is held by the unit".
    pub fn new_list(&mut self, stream: u64) -> Result<u8, Refusal> {
        self.versions()?;
        let to = self.stream(stream)?;
        let list = longest_free(&self.record.free.lists)?;
        self.takes_change(to)?;
        self.record.free.lists.remove(list);
        self.add(to, Change::TakeList { list });
        if let Stream::Unit(unit) = to {
            self.record.unit_mut(unit).held_lists.add(list);
        }
        Ok(list)
    }

    /// NewBlock: puts a free block on `list`, first or after `predecessor`, and returns its number. Asks 1, 3, 4, 5,
    /// 7, 9, 10, then 11 in a unit or 13 on stream 0.
    pub fn new_block(&mut self, stream: u64, list: u64, predecessor: u64) -> Result<u8, Refusal> {
        let versions = self.versions()?;
        let to = self.stream(stream)?;
        let list = number_in_range(list, 1, LISTS)?;
        let predecessor = number_in_range(predecessor, 0, BLOCKS)?;
        let view = self.view(&versions, stream)?;
        list_is_taken(&view, list)?;
        predecessor_is_on(&view, list, predecessor)?;
        let block = longest_free(&self.record.free.blocks)?;
        self.takes_change(to)?;
        self.record.free.blocks.remove(block);
        let change = if predecessor == 0 {
            Change::PutFirst { block, list }
        } else {
            Change::PutAfter {
                block,
                list,
                predecessor,
            }
        };
        self.add(to, change);
        if let Stream::Unit(unit) = to {
            self.record.unit_mut(unit).held_blocks.add(block);
        }
        Ok(block)
    }

    /// Write: gives `block` the 256 bytes of `data`, for a race or, with 0, for none. Asks 1, 3, 4, 5, 8, then 11 or 13;
    /// "a race above 24 in a call is refused 5".
    pub fn write(&mut self, stream: u64, block: u64, data: &[u8], race: u64) -> Result<(), Refusal> {
        let versions = self.versions()?;
        let to = self.stream(stream)?;
        let block = number_in_range(block, 1, BLOCKS)?;
        let race = number_in_range(race, 0, RACES)?;
        length_is(data, BLOCK_BYTES)?;
        block_is_on_a_list(&self.view(&versions, stream)?, block)?;
        self.takes_change(to)?;
        self.add(to, Change::Write { block, race }).copy_from_slice(data);
        Ok(())
    }

    /// DeleteBlock. Its number is free from now on, or once its unit's End is accepted. Asks 1, 3, 4, 5, 8, then 11 or 13.
    pub fn delete_block(&mut self, stream: u64, block: u64) -> Result<(), Refusal> {
        let versions = self.versions()?;
        let to = self.stream(stream)?;
        let block = number_in_range(block, 1, BLOCKS)?;
        block_is_on_a_list(&self.view(&versions, stream)?, block)?;
        self.takes_change(to)?;
        self.add(to, Change::DeleteBlock { block });
        if let Stream::Simple = to {
            self.record.free.blocks.add(block);
        }
        Ok(())
    }

    /// DeleteList: "Blocks freed by one list deletion count in list order". Asks 1, 3, 4, 5, 7, then 11 or 13.
    pub fn delete_list(&mut self, stream: u64, list: u64) -> Result<(), Refusal> {
        let versions = self.versions()?;
        let to = self.stream(stream)?;
        let list = number_in_range(list, 1, LISTS)?;
        list_is_taken(&self.view(&versions, stream)?, list)?;
        self.takes_change(to)?;
        self.add(to, Change::DeleteList { list });
        if let Stream::Simple = to {
            for block in versions.committed.blocks_on(list) {
                self.record.free.blocks.add(block);
            }
            self.record.free.lists.add(list);
        }
        Ok(())
    }

    // ---- Units -------------------------------------------------------------------------------------------------

    /// BeginARU: opens the unit that the caller names, for the window that the caller names. Asks 1, 3, 4, 5, 6.
    pub fn begin(&mut self, unit: u64, window: u64) -> Result<(), Refusal> {
        self.versions()?;
        let unit = unit_number(unit).ok_or(Refusal::Stream)?;
        let window = number_in_range(window, 1, WINDOWS)?;
        if self.record.unit(unit).is_open {
            return Err(Refusal::Begun);
        }
        let unit = self.record.unit_mut(unit);
        unit.is_open = true;
        unit.window = window;
        Ok(())
    }

    /// EndARU: queues the journal as members, then a commit. Asks 1, 3, 4, 12, 13; refusal 12 closes the unit too, and
    /// "raises the count of the window its unit's Begin named and no other". The numbers that the commit frees become free as its
    /// members act, and "numbers released by a closing unit" after them.
    pub fn end(&mut self, unit: u64) -> Result<(), Refusal> {
        let versions = self.versions()?;
        let Stream::Unit(number) = self.stream(unit)? else {
            return Err(Refusal::Stream);
        };
        let unit = *self.record.unit(number);
        let mut committed = versions.committed;
        committed.free = self.record.free;
        if !unit.replay(number, &mut committed) {
            *self.record.unit_mut(number) = Unit::CLOSED;
            self.record.release(&unit, &versions.committed);
            self.record.count_conflict(unit.window);
            return Err(Refusal::Conflict);
        }
        let members = unit.journal().len();
        self.queue_takes(members + 1)?;
        for (entry, &change) in unit.journal().iter().enumerate() {
            let place = self.record.enqueue(Entry::Member(change));
            if change.is_write() {
                let from = journal_data_at(number, entry);
                self.queue_data[place * BLOCK_BYTES..][..BLOCK_BYTES]
                    .copy_from_slice(&self.journal_data[from..][..BLOCK_BYTES]);
            }
        }
        self.record.enqueue(Entry::Commit { members: members as u8 });
        *self.record.unit_mut(number) = Unit::CLOSED;
        self.record.free = committed.free;
        self.record.release(&unit, &committed);
        Ok(())
    }

    // ---- Flush -------------------------------------------------------------------------------------------------

    /// Flush: at most `allowance` byte stores. Asks 1, 3, 5.
    pub fn flush(&mut self, allowance: u64) -> Result<Flushed, Refusal> {
        self.flush_cut(allowance, allowance)
    }

    /// A flush that the power leaves after `stores` of its stores. Asks 1, 3, 5.
    ///
    /// "A cut after k stores of a flush leaves the card that allowance k leaves."
    pub fn flush_cut(&mut self, allowance: u64, stores: u64) -> Result<Flushed, Refusal> {
        let versions = self.versions()?;
        if allowance > ALLOWANCE {
            return Err(Refusal::Range);
        }
        Ok(self.store_entries(versions.log.end, allowance.min(stores) as usize))
    }

    fn store_entries(&mut self, mut end: log::End, allowance: usize) -> Flushed {
        let segments = self.card.len() / SEGMENT_BYTES;
        let mut stores = 0;
        let ending = loop {
            let Some(head) = self.record.head() else {
                break Ending::Drained;
            };
            // A sound record has begun no head that has no place.
            let Some(place) = end.place(head, segments) else {
                break Ending::Full;
            };
            if stores == allowance {
                break Ending::Spent;
            }
            let done = self.record.done();
            let total = log::stores_of(head);
            let goal = total.min(done + allowance - stores);
            let data = &self.queue_data[self.record.head_place() * BLOCK_BYTES..][..BLOCK_BYTES];
            let sequence = Stores::new(head, place, data);
            for number in done..goal {
                let store = sequence.nth(number);
                self.card[store.at] = store.byte;
            }
            stores += goal - done;
            if goal == total {
                self.record.drop_head();
                end = place.end_after(head);
            } else {
                self.record.set_done(goal);
            }
        };
        Flushed {
            stores: stores as u32,
            ending,
        }
    }

    // ---- Look-ups ----------------------------------------------------------------------------------------------

    /// Read: the 256 bytes of `block` in a view; "Read returns the race beside the content". Asks 1, 3, 4, 5, 8, 15.
    pub fn read(&self, view: u64, block: u64, destination: &mut [u8]) -> Result<u8, Refusal> {
        let versions = self.versions()?;
        let view = self.view(&versions, view)?;
        let block = number_in_range(block, 1, BLOCKS)?;
        length_is(destination, BLOCK_BYTES)?;
        block_is_on_a_list(&view, block)?;
        let written = view.written(block).ok_or(Refusal::Unwritten)?;
        destination.copy_from_slice(self.bytes_of(written.content));
        Ok(written.race)
    }

    /// The block after a given one on a list: 0 asks for the first, and 0 is returned at the end. Asks 1, 3, 4, 5, 7,
    /// 9.
    pub fn next_block(&self, view: u64, list: u64, predecessor: u64) -> Result<u8, Refusal> {
        let versions = self.versions()?;
        let view = self.view(&versions, view)?;
        let list = number_in_range(list, 1, LISTS)?;
        let predecessor = number_in_range(predecessor, 0, BLOCKS)?;
        list_is_taken(&view, list)?;
        predecessor_is_on(&view, list, predecessor)?;
        Ok(view.block_after(list, predecessor))
    }

    /// The conflict count of a window. Asks 1, 3, 5.
    pub fn conflicts(&self, window: u64) -> Result<u16, Refusal> {
        self.versions()?;
        let window = number_in_range(window, 1, WINDOWS)?;
        Ok(self.record.conflicts_of(window))
    }

    /// The inventory: fills 16 lent bytes with the lists taken in a view and returns how many there are, in the order
    /// of their taking; other bytes stay. Asks 1, 3, 4, 5.
    pub fn inventory(&self, view: u64, lists: &mut [u8]) -> Result<usize, Refusal> {
        let versions = self.versions()?;
        let view = self.view(&versions, view)?;
        length_is(lists, usize::from(LISTS))?;
        let taken = view.lists();
        lists[..taken.len()].copy_from_slice(taken);
        Ok(taken.len())
    }

    /// A printed page of a view: "The text goes into a lent buffer, its length is returned, and bytes after it don't
    /// change." Asks 1, 3, 4, 14.
    pub fn page(&self, view: u64, buffer: &mut [u8]) -> Result<usize, Refusal> {
        let versions = self.versions()?;
        let view = self.view(&versions, view)?;
        let length = page::length(&view);
        let text = buffer.get_mut(..length).ok_or(Refusal::Page)?;
        page::put(&view, text);
        Ok(length)
    }

    // ---- Questions ---------------------------------------------------------------------------------------------

    /// Question 1. Returns the card's segments.
    fn lengths(&self) -> Result<usize, Refusal> {
        log::segments(self.card)
            .filter(|_| self.queue_data.len() == QUEUE_BYTES)
            .filter(|_| self.journal_data.len() == JOURNAL_BYTES)
            .ok_or(Refusal::Lengths)
    }

    /// Questions 1 and 3.
    pub fn versions(&self) -> Result<Versions, Refusal> {
        self.lengths()?;
        let versions = self.record.judge(self.card, self.queue_data);
        versions.ok_or(Refusal::Record)
    }

    /// Question 4 for a stream.
    fn stream(&self, stream: u64) -> Result<Stream, Refusal> {
        if stream == COMMITTED {
            return Ok(Stream::Simple);
        }
        let unit = unit_number(stream).filter(|&unit| self.record.unit(unit).is_open);
        unit.map(Stream::Unit).ok_or(Refusal::Stream)
    }

    /// Question 4 for a view, and its state: "Unit u's view is the committed state now with u's journal replayed in
    /// order; an entry that doesn't apply is skipped."
    pub fn view(&self, versions: &Versions, view: u64) -> Result<State, Refusal> {
        if view == PERSISTENT {
            return Ok(versions.log.reading.state);
        }
        let mut state = versions.committed;
        if let Stream::Unit(number) = self.stream(view)? {
            self.record.unit(number).replay(number, &mut state);
        }
        Ok(state)
    }

    /// Question 13.
    fn queue_takes(&self, entries: usize) -> Result<(), Refusal> {
        if entries > self.record.queue_room() {
            return Err(Refusal::QueueFull);
        }
        Ok(())
    }

    /// Question 11 in a unit, 13 on stream 0.
    fn takes_change(&self, to: Stream) -> Result<(), Refusal> {
        match to {
            Stream::Simple => self.queue_takes(1),
            Stream::Unit(unit) if self.record.unit(unit).journal().len() < JOURNAL => Ok(()),
            Stream::Unit(_) => Err(Refusal::JournalFull),
        }
    }

    // ---- Parts of the calls ------------------------------------------------------------------------------------

    /// Adds a change to its stream, and lends the 256 bytes of its place.
    fn add(&mut self, to: Stream, change: Change) -> &mut [u8] {
        match to {
            Stream::Simple => {
                let place = self.record.enqueue(Entry::Plain(change));
                &mut self.queue_data[place * BLOCK_BYTES..][..BLOCK_BYTES]
            }
            Stream::Unit(unit) => {
                let entry = self.record.unit(unit).journal().len();
                self.record.unit_mut(unit).add(change);
                &mut self.journal_data[journal_data_at(unit, entry)..][..BLOCK_BYTES]
            }
        }
    }

    /// The bytes of a content.
    fn bytes_of(&self, content: Content) -> &[u8] {
        let (buffer, at): (&[u8], usize) = match content {
            Content::Slot { segment, slot } => (self.card, log::slot_at(usize::from(segment), slot)),
            Content::Queue { place } => (self.queue_data, usize::from(place) * BLOCK_BYTES),
            Content::Journal { unit, entry } => (self.journal_data, journal_data_at(unit, usize::from(entry))),
        };
        &buffer[at..][..BLOCK_BYTES]
    }
}

/// "Data of unit u's entry k, from 0, at ((u−1)×15+k)×256."
fn journal_data_at(unit: u8, entry: usize) -> usize {
    (usize::from(unit - 1) * JOURNAL + entry) * BLOCK_BYTES
}

/// The unit of that number, if there is one.
fn unit_number(number: u64) -> Option<u8> {
    (1..=u64::from(UNITS)).contains(&number).then_some(number as u8)
}

/// Question 5 for a number.
fn number_in_range(number: u64, least: u8, most: u8) -> Result<u8, Refusal> {
    if (u64::from(least)..=u64::from(most)).contains(&number) {
        Ok(number as u8)
    } else {
        Err(Refusal::Range)
    }
}

/// Question 5 for a lent part.
fn length_is(part: &[u8], length: usize) -> Result<(), Refusal> {
    if part.len() == length {
        Ok(())
    } else {
        Err(Refusal::Range)
    }
}

/// Question 7.
fn list_is_taken(view: &State, list: u8) -> Result<(), Refusal> {
    if view.is_taken(list) {
        Ok(())
    } else {
        Err(Refusal::List)
    }
}

/// Question 8.
fn block_is_on_a_list(view: &State, block: u8) -> Result<(), Refusal> {
    if view.is_on_a_list(block) {
        Ok(())
    } else {
        Err(Refusal::Block)
    }
}

/// Question 9.
fn predecessor_is_on(view: &State, list: u8, predecessor: u8) -> Result<(), Refusal> {
    if predecessor == 0 || view.list_of(predecessor) == Some(list) {
        Ok(())
    } else {
        Err(Refusal::Predecessor)
    }
}

/// Question 10, and "the number that has been free longest".
fn longest_free<const GREATEST: usize>(order: &Order<GREATEST>) -> Result<u8, Refusal> {
    order.first().ok_or(Refusal::NoneFree)
}
