//! Numbers that rest: blocks and lists are made and deleted, on every stream and in any order, until every number has come
//! several times. Which comes next is all that is seen of their order.

use super::arguments::blocks_of;
use super::Generator;
use crate::entry::{Change, Entry};
use crate::limits::{BLOCKS, ENTRY_BYTES, QUEUE};
use crate::log::{count_at, entries_at, Log};

const NONE_FREE: Option<u64> = Some(10);
const JOURNAL_FULL: Option<u64> = Some(11);
const QUEUE_FULL: Option<u64> = Some(13);

/// Where fewer blocks are free, the last of them comes after few others.
const FEW_BLOCKS: usize = 12;

impl Generator<'_> {
    /// Numbers are freed by deletions, by Ends and by refusals 12, and then asked for; after them comes what forgets the
    /// queue, the units, or nothing, and they are asked for again.
    pub(super) fn numbers(&mut self) {
        if !self.has_room() {
            return;
        }
        if self.free_blocks() > 2 * FEW_BLOCKS && self.random.chance(60) {
            self.leave_few_blocks();
        }
        for _ in 0..self.random.between(1, 3) {
            match self.random.below(100) {
                0..=21 => self.free_blocks_in_any_order(),
                22..=34 => self.free_blocks_of_a_list(),
                35..=47 => self.free_lists_in_any_order(),
                48..=71 => self.free_in_a_unit(),
                72..=93 => self.hold_and_release(),
                94..=98 => self.use_every_block(),
                _ => self.put_what_is_listed_on_the_card(),
            }
            if self.random.chance(60) {
                self.ask_for_numbers();
            }
        }
        match self.random.below(16) {
            0..=2 => {
                self.run(format_args!("flush 65535"));
                self.run(format_args!("mount"));
            }
            3 => self.run(format_args!("mount")).ignore(),
            4..=5 => self.cut_flush(),
            6 => self.cut(),
            7 if self.random.chance(20) => self.format(),
            8..=10 => self.flush(),
            _ => {}
        }
        self.ask_for_numbers();
    }

    /// Blocks that are free.
    pub(super) fn free_blocks(&self) -> usize {
        self.shell.record().free.blocks.listed().len()
    }

    /// Drains the queue if there is little room in it; another card is put in if that doesn't help.
    fn has_room(&mut self) -> bool {
        if self.shell.record().queue_room() < QUEUE / 2 {
            self.run(format_args!("flush 65535"));
        }
        let has_room = self.shell.record().queue_room() >= QUEUE / 2;
        if !has_room {
            self.new_card();
        }
        has_room
    }

    /// A block is made on `stream`, on any list of its view and behind any block of it.
    fn make_block(&mut self, stream: u64) -> Option<u64> {
        let state = self.state(stream)?;
        let list = match self.random.pick_if_any(state.lists()) {
            Some(list) => u64::from(list),
            None => self.run(format_args!("newlist {stream}")).number?,
        };
        let blocks: Vec<u8> = match u8::try_from(list) {
            Ok(list) if state.is_taken(list) => state.blocks_on(list).collect(),
            _ => Vec::new(),
        };
        let predecessor = self.random.pick_if_any(&blocks).filter(|_| self.random.chance(70));
        let predecessor = predecessor.unwrap_or(0);
        let answer = self.run(format_args!("newblock {stream} {list} {predecessor}")).answer;
        self.make_room(answer);
        answer
    }

    /// Blocks are made until few are free.
    pub(super) fn leave_few_blocks(&mut self) {
        let left = self.random.between(2, FEW_BLOCKS as u64) as usize;
        for _ in self.state(0).map_or(0, |state| state.lists().len())..4 {
            let answer = self.run(format_args!("newlist 0")).answer;
            self.make_room(answer);
        }
        while self.free_blocks() > left && self.lines_left > 0 {
            match self.make_block(0) {
                Some(0) => {}
                QUEUE_FULL if self.shell.record().queue_room() > 0 => {}
                _ => break,
            }
        }
    }

    /// Blocks are made on stream 0 until `block`, which is free, is given, if not too many come before it.
    pub(super) fn until_given(&mut self, block: u64) -> Option<u64> {
        let listed = self.shell.record().free.blocks;
        let before = listed.listed().iter().position(|&free| u64::from(free) == block)?;
        if before > FEW_BLOCKS {
            return None;
        }
        let state = self.state(0)?;
        let list = match self.random.pick_if_any(state.lists()) {
            Some(list) => u64::from(list),
            None => self.run(format_args!("newlist 0")).number.filter(|&list| list > 0)?,
        };
        for _ in 0..before + 2 {
            let made = self.run(format_args!("newblock 0 {list} 0"));
            if made.is_accepted() && made.number == Some(block) {
                return Some(block);
            }
            self.make_room(made.answer);
        }
        None
    }

    /// Numbers are asked for on any streams: so many that those freed last may come.
    pub(super) fn ask_for_numbers(&mut self) {
        let units = self.units(true);
        for _ in 0..self.random.between(1, FEW_BLOCKS as u64 + 3) {
            let unit = self.random.pick_if_any(&units).unwrap_or(0);
            let stream = self.random.pick(&[0, 0, 0, unit]);
            let answer = if self.random.chance(85) {
                self.make_block(stream)
            } else {
                let answer = self.run(format_args!("newlist {stream}")).answer;
                self.make_room(answer);
                answer
            };
            match answer {
                NONE_FREE if self.random.chance(70) => break,
                JOURNAL_FULL => {
                    let answer = self.run(format_args!("end {stream}")).answer;
                    self.make_room(answer);
                    break;
                }
                _ => {}
            }
        }
    }

    /// Blocks of the committed state, as many as asked for if there are so many, in any order.
    fn some_blocks(&mut self, count: u64) -> Vec<u8> {
        let mut blocks = self.state(0).map(|state| blocks_of(&state)).unwrap_or_default();
        let mut chosen = Vec::new();
        for _ in 0..count.min(blocks.len() as u64) {
            chosen.push(blocks.swap_remove(self.random.below(blocks.len() as u64) as usize));
        }
        chosen
    }

    fn free_blocks_in_any_order(&mut self) {
        let count = self.random.between(1, 8);
        for block in self.some_blocks(count) {
            let answer = self.run(format_args!("delblock 0 {block}")).answer;
            self.make_room(answer);
            if self.random.chance(20) {
                self.make_block(0);
            }
        }
    }

    /// Each block that is on a list now goes, in any order, and another comes in its place.
    fn use_every_block(&mut self) {
        if !self.has_room() {
            return;
        }
        for block in self.some_blocks(u64::from(BLOCKS)) {
            let answer = self.run(format_args!("delblock 0 {block}")).answer;
            self.make_room(answer);
            self.make_block(0);
        }
    }

    /// "Blocks freed by one list deletion count in list order": a list with several blocks goes, most of the time one on which
    /// they don't ascend.
    fn free_blocks_of_a_list(&mut self) {
        let Some(state) = self.state(0) else { return };
        let blocks = |list: u8| state.blocks_on(list).collect::<Vec<u8>>();
        let long: Vec<u8> = state
            .lists()
            .iter()
            .copied()
            .filter(|&list| blocks(list).len() > 1)
            .collect();
        let unordered: Vec<u8> = long.iter().copied().filter(|&list| !blocks(list).is_sorted()).collect();
        let list = self.random.pick_if_any(&unordered).or(self.random.pick_if_any(&long));
        let Some(list) = list else {
            self.make_block(0);
            return;
        };
        let stream = if self.random.chance(70) { 0 } else { self.opened_unit() };
        let answer = self.run(format_args!("dellist {stream} {list}")).answer;
        self.make_room(answer);
        if stream > 0 && self.random.chance(70) {
            let answer = self.run(format_args!("end {stream}")).answer;
            self.make_room(answer);
        }
    }

    /// Every list is taken, some go in any order, those with few blocks more often, and come again.
    fn free_lists_in_any_order(&mut self) {
        if self.random.chance(60) {
            self.fill_lists();
        }
        let units = self.units(true);
        for _ in 0..self.random.between(1, 3) {
            let Some(state) = self.state(0) else { return };
            let mut lists = state.lists().to_vec();
            if self.random.chance(80) {
                lists.retain(|&list| state.blocks_on(list).count() < 4);
            }
            for _ in 0..self.random.between(1, 8).min(lists.len() as u64) {
                let list = lists.swap_remove(self.random.below(lists.len() as u64) as usize);
                let answer = self.run(format_args!("dellist 0 {list}")).answer;
                self.make_room(answer);
            }
            for _ in 0..self.random.between(1, 8) {
                let unit = self.random.pick_if_any(&units).unwrap_or(0);
                let stream = self.random.pick(&[0, 0, unit]);
                let answer = self.run(format_args!("newlist {stream}")).answer;
                self.make_room(answer);
            }
        }
    }

    /// A unit makes blocks and lists, and deletes some of them and some of others, while stream 0 is given numbers too; its
    /// End frees numbers as its members act. Now and then it is refused 13 first.
    fn free_in_a_unit(&mut self) {
        let unit = self.opened_unit();
        let mut own = Vec::new();
        for _ in 0..self.random.between(2, 9) {
            match self.random.below(12) {
                0..=3 => {
                    let given = self.shell.record().free.blocks.first();
                    if self.make_block(unit) == Some(0) {
                        own.extend(given);
                    }
                }
                4..=5 => {
                    if let Some(block) = self.random.pick_if_any(&own) {
                        self.run(format_args!("delblock {unit} {block}"));
                    }
                }
                6..=7 => {
                    for block in self.some_blocks(1) {
                        self.run(format_args!("delblock {unit} {block}"));
                    }
                }
                8 => match self.random.pick_if_any(&self.lists_taken_in(unit)) {
                    Some(list) if self.random.chance(70) => self.run(format_args!("dellist {unit} {list}")).ignore(),
                    _ => self.delete_list(unit),
                },
                9 => self.new_list(unit),
                10 => {
                    self.make_block(0);
                }
                _ => self.free_blocks_in_any_order(),
            }
        }
        if self.random.chance(15) {
            self.fill_queue();
        }
        if self.random.chance(80) {
            let answer = self.run(format_args!("end {unit}")).answer;
            self.make_room(answer);
            if answer == QUEUE_FULL {
                self.run(format_args!("end {unit}"));
            }
        }
    }

    /// A unit is given numbers, and others are freed before they are released: by refusal 12, by a mounting or by a cut.
    fn hold_and_release(&mut self) {
        let unit = self.opened_unit();
        let block = self.some_blocks(1);
        for &block in &block {
            self.run(format_args!("delblock {unit} {block}"));
        }
        for _ in 0..self.random.between(1, 5) {
            if self.random.chance(80) {
                self.make_block(unit);
            } else {
                self.new_list(unit);
            }
            if self.random.chance(30) {
                self.make_block(0);
            }
        }
        if self.random.chance(40) {
            self.free_blocks_in_any_order();
        }
        match self.random.below(10) {
            0 => self.run(format_args!("mount")).ignore(),
            1 => self.cut(),
            _ => {
                for &block in &block {
                    self.run(format_args!("delblock 0 {block}"));
                }
                let answer = self.run(format_args!("end {unit}")).answer;
                self.make_room(answer);
            }
        }
    }

    /// Someone else adds an entry to the card that puts a block or takes a list which is free or held, or takes the last entry
    /// off: question 3 asks for each free number and no other.
    fn put_what_is_listed_on_the_card(&mut self) {
        self.run(format_args!("flush 65535"));
        let record = *self.shell.record();
        let Some(state) = self.state(0).filter(|_| record.queue_length() == 0) else {
            return;
        };
        let free = record.free.blocks.listed();
        let change = match (self.random.below(4), self.random.pick_if_any(free)) {
            (0, _) => {
                let list = self.random.pick_if_any(record.free.lists.listed());
                list.map(|list| Change::TakeList { list })
            }
            (1..=2, Some(block)) => {
                let list = self.random.pick_if_any(state.lists());
                list.map(|list| Change::PutFirst { block, list })
            }
            _ => None,
        };
        match change {
            Some(change) => self.add_on_the_card(change),
            None => self.take_the_last_off_the_card(),
        }
        for _ in 0..self.random.between(1, 3) {
            self.any_call();
        }
        self.repair();
    }

    /// Someone else stores a plain entry behind the log.
    pub(super) fn add_on_the_card(&mut self, change: Change) {
        let Ok(log) = Log::read(self.shell.lent().card) else {
            return;
        };
        let entry = Entry::Plain(change).encode(0);
        if log.end.bytes + entry.bytes().len() > ENTRY_BYTES || log.end.count == u8::MAX {
            return;
        }
        let at = entries_at(log.end.segment) + log.end.bytes;
        for (offset, &byte) in entry.bytes().iter().enumerate() {
            self.poke(at + offset, byte);
        }
        self.poke(count_at(log.end.segment), log.end.count + 1);
    }

    /// Someone else lowers the count of the last segment in use.
    fn take_the_last_off_the_card(&mut self) {
        let Ok(log) = Log::read(self.shell.lent().card) else {
            return;
        };
        self.poke(count_at(log.end.segment), log.end.count.saturating_sub(1));
    }
}
