//! Logs that are stored byte by byte: acceptable ones that no flush would leave, with long runs and segments opened
//! early, and ones with a single fault.

use super::arguments::blocks_of;
use super::races::any_race;
use super::Generator;
use crate::entry::{Change, Entry};
use crate::limits::{BLOCKS, BLOCK_BYTES, ENTRY_BYTES, JOURNAL, LISTS, RACES, SEGMENT_BYTES, SLOTS};
use crate::log::{count_at, entries_at, slot_at};
use crate::random::Random;
use crate::state::{Content, Reading, State};

/// The content that writes bring where only lists and blocks matter, and which of these are written.
const SOME_CONTENT: Content = Content::Queue { place: 0 };

impl Generator<'_> {
    /// Another card is put in, a log is stored on it byte by byte, and it is mounted.
    pub(super) fn stored_log(&mut self) {
        let segments = self.segments_of_profile();
        let log = random_log(&mut self.random, segments);
        self.store_log(&log);
    }

    /// The same with a log whose only segment in use is nearly full; then entries are added.
    pub(super) fn full_log(&mut self) {
        let segments = self.segments_of_profile();
        let mut writer = Writer::new(segments);
        let steps = self.random.below(4);
        writer.write_log(&mut self.random, steps, 0);
        writer.fill(self.random.between(0, 7) as usize);
        self.store_log(&writer.card);
        if self.shell.versions().is_some() {
            self.go_on();
        }
    }

    /// The same where just the race byte of a write has no room in the last segment in use.
    pub(super) fn full_log_for_a_race(&mut self) {
        let segments = self.segments_of_profile();
        let mut writer = Writer::new(segments);
        let steps = self.random.below(4);
        writer.write_log(&mut self.random, steps, 0);
        let Some(block) = writer.block_on_a_list(&mut self.random) else {
            return self.any_call();
        };
        let left = self.random.pick(&[3, 3, 3, 4]);
        writer.leave(left);
        self.store_log(&writer.card);
        for _ in 0..self.random.between(1, 3) {
            self.write_for_a_race(0, u64::from(block));
            if self.random.chance(60) {
                let allowance = self.random.pick(&[0, 1, 256, 259, 260, 261, 65_535]);
                self.run(format_args!("flush {allowance}"));
            }
        }
        self.read_in_views(u64::from(block));
        self.flush();
        self.mount();
    }

    /// The same with a short log that has a fault.
    pub(super) fn faulty_log(&mut self) {
        let segments = self.segments_of_profile();
        let log = match self.random.below(20) {
            0..=7 => random_faulty_race(&mut self.random, segments),
            8..=10 => random_faulty_take(&mut self.random, segments),
            _ => random_faulty_log(&mut self.random, segments),
        };
        self.store_log(&log);
    }

    fn store_log(&mut self, log: &[u8]) {
        let stores = log.iter().filter(|&&byte| byte != 0).count();
        if stores + 10 > self.lines_left {
            return self.any_call();
        }
        self.run(format_args!("card {} 0", log.len()));
        self.damage.clear();
        for (at, &byte) in log.iter().enumerate().filter(|(_, &byte)| byte != 0) {
            self.run(format_args!("poke {at} {byte}"));
        }
        if self.random.chance(30) {
            self.run(format_args!("list"));
        }
        if self.run(format_args!("mount")).is_accepted() {
            self.run(format_args!("show 0"));
            self.run(format_args!("sum"));
            if self.random.chance(50) {
                self.go_on();
            }
        }
    }

    /// Adds a few entries behind the log, or asks for many numbers, and mounts what is left.
    fn go_on(&mut self) {
        if self.random.chance(40) {
            self.ask_for_numbers();
        }
        for _ in 0..self.random.between(1, 4) {
            if self.random.chance(70) {
                self.change_on(0);
            } else {
                self.begin_unit(1);
                self.run(format_args!("end 1"));
            }
            if self.random.chance(50) {
                self.run(format_args!("flush 65535"));
            }
        }
        self.flush();
        self.mount();
    }
}

/// A card of so many segments with a random log, most of the time an acceptable one.
pub(super) fn random_log(random: &mut Random, segments: usize) -> Vec<u8> {
    let mut writer = Writer::new(segments);
    if random.chance(if segments > 16 { 60 } else { 20 }) {
        writer.write_sparse_log(random);
    } else {
        let (steps, opens_early) = random.pick(&[(1, 0), (2, 20), (4, 0), (8, 20), (15, 5), (40, 5), (20, 60)]);
        writer.write_log(random, steps, opens_early);
    }
    match random.below(20) {
        0..=8 => writer.add_fault(random),
        9..=10 => {
            writer.add_dead_members(random, 30);
        }
        _ => {}
    }
    writer.card
}

/// A card of so many segments with a short log that has a fault, or nearly one.
pub(super) fn random_faulty_log(random: &mut Random, segments: usize) -> Vec<u8> {
    let mut writer = Writer::new(segments);
    let steps = random.between(2, 8);
    writer.write_log(random, steps, 10);
    writer.add_fault(random);
    writer.card
}

/// The same with a write for a race, or for none, that has a fault, or nearly one.
pub(super) fn random_faulty_race(random: &mut Random, segments: usize) -> Vec<u8> {
    let mut writer = Writer::new(segments);
    let steps = random.between(2, 8);
    writer.write_log(random, steps, 10);
    writer.add_faulty_race(random);
    if random.chance(30) {
        writer.add_unit(random);
    }
    writer.card
}

/// The same with a member that takes a list, and has a fault, or nearly one.
pub(super) fn random_faulty_take(random: &mut Random, segments: usize) -> Vec<u8> {
    let mut writer = Writer::new(segments);
    let steps = random.between(0, 6);
    writer.write_log(random, steps, 10);
    writer.add_faulty_take(random);
    if random.chance(30) {
        writer.add_unit(random);
    }
    writer.card
}

/// A log being stored, with the state that it makes.
struct Writer {
    card: Vec<u8>,
    segment: usize,
    bytes: usize,
    slots: u8,
    reading: Reading,
}

impl Writer {
    fn new(segments: usize) -> Writer {
        Writer {
            card: vec![0; segments * SEGMENT_BYTES],
            segment: 0,
            bytes: 0,
            slots: 0,
            reading: Reading::START,
        }
    }

    /// Plain entries, units and dead members, segments opened early now and then.
    fn write_log(&mut self, random: &mut Random, steps: u64, opens_early: u64) {
        for _ in 0..steps {
            if random.chance(opens_early) {
                self.open_segment();
            }
            let is_added = match random.below(20) {
                0..=9 => self.add_plain(random),
                10..=17 => self.add_unit(random),
                18 => self.add_dead_members(random, 20),
                _ => self.add(random, Entry::Commit { members: 0 }),
            };
            if !is_added {
                break;
            }
        }
    }

    /// Few entries in each segment, most of the time in all segments.
    fn write_sparse_log(&mut self, random: &mut Random) {
        let has_members = random.chance(50);
        loop {
            let is_added = if has_members && random.chance(60) {
                let change = any_change(random);
                self.add(random, Entry::Member(change))
            } else {
                self.add_plain(random)
            };
            if !is_added || !self.open_segment() || random.chance(1) {
                break;
            }
        }
    }

    fn add_plain(&mut self, random: &mut Random) -> bool {
        let change = change_of(random, &self.reading.state);
        self.add(random, Entry::Plain(change))
    }

    /// Opens the next segment, if this one is in use and there is one.
    fn open_segment(&mut self) -> bool {
        let is_used = self.card[count_at(self.segment)] != 0;
        let opens = is_used && (self.segment + 2) * SEGMENT_BYTES <= self.card.len();
        if opens {
            self.segment += 1;
            self.bytes = 0;
            self.slots = 0;
        }
        opens
    }

    /// Stores an entry with some data, if there is room. An entry that doesn't apply is stored all the same.
    fn add(&mut self, random: &mut Random, entry: Entry) -> bool {
        let has_slot = !entry.is_write() || self.slots < SLOTS;
        let fits = has_slot && self.bytes + entry.length() <= ENTRY_BYTES;
        if !fits && !self.open_segment() {
            return false;
        }
        if entry.is_write() {
            let data = slot_at(self.segment, self.slots);
            for _ in 0..2 {
                self.card[data + random.below(BLOCK_BYTES as u64) as usize] = random.byte();
            }
        }
        self.store(entry.encode(self.slots).bytes());
        self.slots += u8::from(entry.is_write());
        // The writer goes on behind a fault as if the entry were not there.
        let mut reading = self.reading;
        if reading.read(entry, SOME_CONTENT).is_ok() {
            self.reading = reading;
        }
        true
    }

    fn store(&mut self, bytes: &[u8]) {
        let at = entries_at(self.segment) + self.bytes;
        self.card[at..][..bytes.len()].copy_from_slice(bytes);
        self.bytes += bytes.len();
        // Behind a fault the count may be any byte.
        let count = &mut self.card[count_at(self.segment)];
        *count = count.wrapping_add(1);
    }

    /// Empty commits until only `left` bytes of the summary are left, or one more.
    fn fill(&mut self, left: usize) {
        while self.bytes + 2 <= ENTRY_BYTES - left {
            self.store(Entry::Commit { members: 0 }.encode(0).bytes());
        }
    }

    /// Commits and a dead member until just `left` bytes of the summary are left, if there are enough.
    fn leave(&mut self, left: usize) {
        self.fill(left + 3);
        match ENTRY_BYTES - left - self.bytes.min(ENTRY_BYTES - left) {
            3 => self.store(&[131, 1, 1]),
            4 => self.fill(left),
            _ => {}
        }
    }

    /// A block on a list, put there if none is.
    fn block_on_a_list(&mut self, random: &mut Random) -> Option<u8> {
        if self.reading.state.lists().is_empty() {
            self.add(random, Entry::Plain(Change::TakeList { list: 1 }));
        }
        let list = random.pick_if_any(self.reading.state.lists())?;
        if blocks_of(&self.reading.state).is_empty() {
            self.add(random, Entry::Plain(Change::PutFirst { block: 1, list }));
        }
        random.pick_if_any(&blocks_of(&self.reading.state))
    }

    /// Members that no commit takes.
    fn add_dead_members(&mut self, random: &mut Random, most: u64) -> bool {
        for _ in 0..random.below(most + 1) {
            let change = any_change(random);
            if !self.add(random, Entry::Member(change)) {
                return false;
            }
        }
        true
    }

    /// Dead members now and then, members that apply, and their commit.
    fn add_unit(&mut self, random: &mut Random) -> bool {
        let dead_members = random.pick(&[0, 0, 0, 4, 20]);
        if !self.add_dead_members(random, dead_members) {
            return false;
        }
        let mut view = self.reading.state;
        let mut members = 0;
        let takes_lists = random.chance(40);
        for _ in 0..random.pick(&[0, 1, 2, 3, 4, JOURNAL]) {
            let take = free_list(random, &view).filter(|_| takes_lists && random.chance(30));
            let change = match take {
                Some(list) => Change::TakeList { list },
                None => change_of(random, &view),
            };
            if !view.apply(change, SOME_CONTENT) {
                continue;
            }
            if !self.add(random, Entry::Member(change)) {
                return false;
            }
            members += 1;
        }
        self.add(random, Entry::Commit { members })
    }

    /// One fault, of any kind; entries may follow it.
    fn add_fault(&mut self, random: &mut Random) {
        match random.below(20) {
            0 => self.add_bytes(&[random.byte(), random.byte()]),
            1 => self.card[count_at(self.segment)] = random.byte(),
            2 => self.use_segments_after_an_empty_one(random),
            3 => {
                let block = random.pick_if_any(&blocks_of(&self.reading.state)).unwrap_or(1);
                self.add_bytes(&[random.pick(&[9, 137]), block, random.below(16) as u8]);
            }
            4 => {
                let members = random.below(JOURNAL as u64 + 1) as u8;
                self.add(random, Entry::Commit { members });
            }
            5 => {
                let change = any_change(random);
                self.add(random, Entry::Plain(change));
            }
            6..=7 => {
                let change = any_change(random);
                self.add(random, Entry::Member(change));
                self.add(random, Entry::Commit { members: 1 });
            }
            8 => self.add_half_an_entry(random),
            9..=10 => self.add_commit_above_its_range(random),
            11..=12 => self.add_commit_behind_an_ended_run(random),
            13 => self.add_put_behind_another_list(random),
            14 => {
                let at = entries_at(self.segment) + random.below(self.bytes as u64 + 1) as usize;
                self.card[at] = random.byte();
            }
            _ => self.add_field_at_its_border(random),
        }
        if random.chance(50) {
            self.add_unit(random);
        }
    }

    /// Counts above 0 in segments that the log has not reached; the first of them may be the next.
    fn use_segments_after_an_empty_one(&mut self, random: &mut Random) {
        let segments = self.card.len() / SEGMENT_BYTES;
        for segment in self.segment + 1..segments {
            if random.chance(40) {
                self.card[count_at(segment)] = random.byte();
            }
        }
    }

    /// Stores bytes that may be no entry.
    fn add_bytes(&mut self, bytes: &[u8]) {
        if self.bytes + bytes.len() <= ENTRY_BYTES {
            self.store(bytes);
        }
    }

    /// The summary ends in the middle of an entry.
    fn add_half_an_entry(&mut self, random: &mut Random) {
        self.fill(random.between(1, 3) as usize);
        let map = random.pick(&[7, 135, 73, 201]);
        let entry = [map, 1, if map % 128 == 7 { 1 } else { self.slots }];
        let length = entry.len().min(ENTRY_BYTES - self.bytes);
        self.store(&entry[..length]);
    }

    /// A write for a race whose bytes are at the border of what is legal, or bit 6 on an entry that has no race; plain or a
    /// member, dead or committed.
    fn add_faulty_race(&mut self, random: &mut Random) {
        let block = self.block_on_a_list(random).unwrap_or(1);
        let race = random.between(1, u64::from(RACES)) as u8;
        let slot = self.slots;
        let mut bytes = match random.below(12) {
            0..=3 => vec![
                73,
                block,
                slot,
                random.pick(&[0, 0, 1, RACES, RACES + 1, RACES + 1, 32, 128, 255]),
            ],
            // The race stands before the slot.
            4 => vec![73, block, race, slot],
            // A race byte without its bit.
            5 => vec![9, block, slot, race],
            6..=10 => self.with_bit_6(random, race),
            _ => return self.add_half_an_entry(random),
        };
        if random.chance(40) {
            bytes[0] |= 128;
        }
        let is_member = bytes[0] >= 128;
        self.add_bytes(&bytes);
        if is_member && random.chance(60) {
            self.add_bytes(&[16, 1]);
        }
    }

    /// The bytes of an entry that is no write and applies, if one of its kind does, or of a write that is more than that, with
    /// bit 6 and a race byte.
    fn with_bit_6(&mut self, random: &mut Random, race: u8) -> Vec<u8> {
        let state = &self.reading.state;
        let block = random.pick_if_any(&blocks_of(state)).unwrap_or(1);
        let list = state.list_of(block).unwrap_or(1);
        let free_list = (1..=LISTS).find(|&list| !state.is_taken(list)).unwrap_or(1);
        let free_block = (1..=BLOCKS).find(|&block| !state.is_on_a_list(block)).unwrap_or(1);
        match random.below(9) {
            0 => vec![66, free_list, race],
            1 => vec![67, free_block, list, race],
            2 => vec![71, free_block, list, block, race],
            3 => vec![97, block, race],
            4 => vec![98, list, race],
            // A write with a removal, or with a list.
            5 => vec![105, block, self.slots, race],
            6 => vec![75, block, list, self.slots, race],
            _ => vec![80, 0, race],
        }
    }

    /// Members of which one takes a list: at the border of its range, twice, before what needs it or behind; then a commit of
    /// all of them, of some, of one too many, or none.
    fn add_faulty_take(&mut self, random: &mut Random) {
        let state = self.reading.state;
        let list = free_list(random, &state).unwrap_or(LISTS);
        let taken = random.pick_if_any(state.lists()).unwrap_or(list);
        let block = (1..=BLOCKS).find(|&block| !state.is_on_a_list(block)).unwrap_or(1);
        let (take, take_taken) = (Change::TakeList { list }, Change::TakeList { list: taken });
        let (delete, delete_taken) = (Change::DeleteList { list }, Change::DeleteList { list: taken });
        let put = Change::PutFirst { block, list };
        let members = match random.below(13) {
            0..=3 => {
                self.add_bytes(&[130, random.pick(&[0, 0, LISTS, LISTS + 1, LISTS + 1, 32, 128, 255])]);
                return self.add_commit_about(random, 1);
            }
            4..=5 => return self.add_take_at_the_end(random, list),
            6 => vec![take_taken],
            7 => vec![take, take],
            8 => vec![put, take],
            9 => vec![take, put],
            10 => vec![take, put, delete, take],
            11 => vec![delete_taken, take_taken],
            // A dead member doesn't take the list: a plain entry does.
            _ => {
                self.add(random, Entry::Member(take));
                self.add(random, Entry::Plain(take));
                return self.add_commit_about(random, 0);
            }
        };
        for &change in &members {
            self.add(random, Entry::Member(change));
        }
        self.add_commit_about(random, members.len() as u8);
    }

    /// A commit of `members`, of one less or one more, or none.
    fn add_commit_about(&mut self, random: &mut Random, members: u8) {
        let commit = match random.below(10) {
            0..=4 => members,
            5..=6 => members.saturating_sub(1),
            7 => members + 1,
            _ => return,
        };
        self.add(random, Entry::Commit { members: commit });
    }

    /// A member that takes `list` ends with the summary, or has its last byte behind it; its commit opens the next segment.
    fn add_take_at_the_end(&mut self, random: &mut Random, list: u8) {
        // A put, so that the entries are fewer than a count can say.
        self.block_on_a_list(random);
        let left = random.between(1, 2) as usize;
        self.leave(left);
        self.add_bytes(&[130, list][..left]);
        if random.chance(60) {
            self.add(random, Entry::Commit { members: 1 });
        }
    }

    /// A commit of 15, 16 or more, behind as many members that apply: puts and deletions of one block, or writes.
    fn add_commit_above_its_range(&mut self, random: &mut Random) {
        let state = self.reading.state;
        let Some(list) = random.pick_if_any(state.lists()) else {
            return;
        };
        let members: u8 = random.pick(&[15, 16, 16, 17, 20]);
        if let Some(block) = random.pick_if_any(&blocks_of(&state)).filter(|_| random.chance(50)) {
            for _ in 0..members {
                let race = any_race(random);
                self.add(random, Entry::Member(Change::Write { block, race }));
            }
        } else if let Some(block) = (1..=BLOCKS).find(|&block| !state.is_on_a_list(block)) {
            for _ in 0..members.div_ceil(2) {
                self.add(random, Entry::Member(Change::PutFirst { block, list }));
                self.add(random, Entry::Member(Change::DeleteBlock { block }));
            }
        }
        self.add_bytes(&[16, members]);
    }

    /// A commit that would take a member which a plain entry or another commit has left dead.
    fn add_commit_behind_an_ended_run(&mut self, random: &mut Random) {
        let state = self.reading.state;
        let change = match random.pick_if_any(&blocks_of(&state)) {
            Some(block) => Change::Write {
                block,
                race: any_race(random),
            },
            None => any_change(random),
        };
        self.add(random, Entry::Member(change));
        if random.chance(50) {
            self.add_plain(random);
        } else {
            self.add(random, Entry::Commit { members: 0 });
        }
        self.add(random, Entry::Commit { members: 1 });
    }

    /// A put behind a block that is on another list, as a plain entry or as a member with its commit.
    fn add_put_behind_another_list(&mut self, random: &mut Random) {
        let state = self.reading.state;
        let predecessor = random.pick_if_any(&blocks_of(&state));
        let list = random.pick_if_any(state.lists());
        let block = (1..=BLOCKS).rev().find(|&block| !state.is_on_a_list(block));
        let (Some(predecessor), Some(list), Some(block)) = (predecessor, list, block) else {
            return;
        };
        let change = Change::PutAfter {
            block,
            list,
            predecessor,
        };
        if random.chance(50) {
            self.add(random, Entry::Plain(change));
        } else {
            self.add(random, Entry::Member(change));
            self.add(random, Entry::Commit { members: 1 });
        }
    }

    /// An entry with one field at the border of its range, plain or a member, dead or committed.
    fn add_field_at_its_border(&mut self, random: &mut Random) {
        let change = if random.chance(50) {
            change_of(random, &self.reading.state)
        } else {
            any_change(random)
        };
        let is_member = random.chance(60);
        let entry = if is_member {
            Entry::Member(change)
        } else {
            Entry::Plain(change)
        };
        let encoded = entry.encode(self.slots);
        let mut bytes = encoded.bytes().to_vec();
        let field = random.between(1, bytes.len() as u64 - 1) as usize;
        let borders = match (change, field) {
            (Change::TakeList { .. } | Change::DeleteList { .. }, _) => [0, LISTS, LISTS + 1],
            (Change::PutFirst { .. } | Change::PutAfter { .. }, 2) => [0, LISTS, LISTS + 1],
            (Change::Write { .. }, 2) => [0, SLOTS - 1, SLOTS],
            (Change::Write { .. }, 3) => [0, RACES, RACES + 1],
            _ => [0, BLOCKS, BLOCKS + 1],
        };
        bytes[field] = random.pick(&borders);
        self.add_bytes(&bytes);
        if is_member && random.chance(50) {
            self.add_bytes(&[16, 1]);
        }
    }
}

/// A change that applies to `state`.
fn change_of(random: &mut Random, state: &State) -> Change {
    let blocks = blocks_of(state);
    let free_blocks: Vec<u8> = (1..=BLOCKS).filter(|&block| !state.is_on_a_list(block)).collect();
    let kind = random.below(20);
    if let (0..=1, Some(list)) = (kind, random.pick_if_any(state.lists())) {
        return Change::DeleteList { list };
    }
    if let (2..=4, Some(block)) = (kind, random.pick_if_any(&blocks)) {
        return Change::DeleteBlock { block };
    }
    if let (5..=9, Some(block)) = (kind, random.pick_if_any(&blocks)) {
        let race = any_race(random);
        return Change::Write { block, race };
    }
    let (list, block) = (random.pick_if_any(state.lists()), random.pick_if_any(&free_blocks));
    if let (10..=18, Some(list), Some(block)) = (kind, list, block) {
        let before: Vec<u8> = state.blocks_on(list).collect();
        return match random.pick_if_any(&before).filter(|_| kind > 12) {
            None => Change::PutFirst { block, list },
            Some(predecessor) => Change::PutAfter {
                block,
                list,
                predecessor,
            },
        };
    }
    match free_list(random, state) {
        Some(list) => Change::TakeList { list },
        None => Change::DeleteList {
            list: random.pick(state.lists()),
        },
    }
}

/// A list that is not taken, if there is one.
fn free_list(random: &mut Random, state: &State) -> Option<u8> {
    let free: Vec<u8> = (1..=LISTS).filter(|&list| !state.is_taken(list)).collect();
    random.pick_if_any(&free)
}

/// A change of any kind, with any numbers in range.
fn any_change(random: &mut Random) -> Change {
    let list = random.between(1, u64::from(LISTS)) as u8;
    let block = random.between(1, u64::from(BLOCKS)) as u8;
    let predecessor = random.between(1, u64::from(BLOCKS)) as u8;
    let race = any_race(random);
    random.pick(&[
        Change::TakeList { list },
        Change::PutFirst { block, list },
        Change::PutAfter {
            block,
            list,
            predecessor,
        },
        Change::Write { block, race },
        Change::DeleteBlock { block },
        Change::DeleteList { list },
    ])
}
