//! Lists taken in units: which numbers are given, what the views show, and what is left of them.

use super::arguments::stores_of_queue;
use super::Generator;
use crate::entry::Change;
use crate::limits::{BLOCKS, JOURNAL, LISTS};

const NONE_FREE: Option<u64> = Some(10);
const JOURNAL_FULL: Option<u64> = Some(11);

impl Generator<'_> {
    /// A unit takes lists, puts blocks on them and deletes some again, while other streams take lists too; every view is
    /// looked at. Then the unit ends, is refused 12, is lost, or goes on.
    pub(super) fn lists(&mut self) {
        if self.random.chance(20) {
            self.come_to_the_last_list();
        }
        let unit = self.opened_unit();
        for _ in 0..self.random.between(1, 6) {
            self.change_own_lists(unit);
            if self.random.chance(35) {
                self.change_other_lists(unit);
            }
            if self.random.chance(40) {
                self.lists_in_views();
            }
        }
        match self.random.below(20) {
            0..=1 => self.run_out_of_lists(unit),
            2 => self.fill_journal_and_take(unit),
            3 => self.fill_queue_and_take(unit),
            4..=5 => self.take_a_held_list_on_the_card(unit),
            _ => {}
        }
        self.leave_unit(unit);
        self.lists_in_views();
        if self.random.chance(50) {
            self.take_on_some_stream();
        }
    }

    /// Lists that `unit` has taken, in the order of its journal; some may be deleted again.
    pub(super) fn lists_taken_in(&self, unit: u64) -> Vec<u8> {
        let journal = self.shell.record().unit(unit as u8).journal();
        let taken = journal.iter().filter_map(|&change| match change {
            Change::TakeList { list } => Some(list),
            _ => None,
        });
        taken.collect()
    }

    /// A list is taken in `unit`, or one that it has taken gets, changes or loses a block, or goes.
    fn change_own_lists(&mut self, unit: u64) {
        let Some(state) = self.state(unit) else { return };
        let mut own = self.lists_taken_in(unit);
        own.retain(|&list| state.is_taken(list));
        let Some(list) = self.random.pick_if_any(&own).filter(|_| self.random.chance(70)) else {
            return self.new_list(unit);
        };
        let blocks: Vec<u8> = state.blocks_on(list).collect();
        match (self.random.below(12), self.random.pick_if_any(&blocks)) {
            (0..=1, _) => self.run(format_args!("dellist {unit} {list}")).ignore(),
            (2, Some(block)) => self.run(format_args!("delblock {unit} {block}")).ignore(),
            (3..=5, Some(block)) => {
                self.write_for_a_race(unit, u64::from(block));
            }
            (_, predecessor) => {
                let predecessor = predecessor.unwrap_or(0);
                self.run(format_args!("newblock {unit} {list} {predecessor}"));
            }
        }
    }

    /// Another stream takes a list or deletes one, or names one that `unit` has taken.
    fn change_other_lists(&mut self, unit: u64) {
        let others: Vec<u64> = self.units(true).into_iter().filter(|&other| other != unit).collect();
        let other = self.random.pick_if_any(&others).unwrap_or(0);
        let stream = self.random.pick(&[0, 0, other]);
        let own = self.random.pick_if_any(&self.lists_taken_in(unit));
        match (self.random.below(10), own) {
            (0..=3, _) => {
                let answer = self.run(format_args!("newlist {stream}")).answer;
                self.make_room(answer);
            }
            (4, _) => self.delete_list(stream),
            (5, Some(list)) => self.run(format_args!("newblock {stream} {list} 0")).ignore(),
            (6, Some(list)) => self.run(format_args!("dellist {stream} {list}")).ignore(),
            (7, Some(list)) => self.run(format_args!("next {stream} {list} 0")).ignore(),
            (8, _) => self.flush(),
            _ => self.change_on(stream),
        }
    }

    /// A list is taken on stream 0 or in an open unit.
    fn take_on_some_stream(&mut self) {
        let units = self.units(true);
        let unit = self.random.pick_if_any(&units).unwrap_or(0);
        let stream = self.random.pick(&[0, unit]);
        let answer = self.run(format_args!("newlist {stream}")).answer;
        self.make_room(answer);
    }

    /// View 0, those of open units and view 5, each most of the time: their lists in order, all of them, their page, or a
    /// list that some unit has taken.
    fn lists_in_views(&mut self) {
        let units = self.units(true);
        let taken: Vec<u8> = units.iter().flat_map(|&unit| self.lists_taken_in(unit)).collect();
        for view in units.into_iter().chain([0, 5]) {
            let list = self.random.pick_if_any(&taken);
            match (self.random.below(10), list) {
                (0..=2, _) => self.run(format_args!("inventory {view}")).ignore(),
                (3..=4, _) => {
                    self.run(format_args!("show {view}"));
                    self.run(format_args!("sum"));
                }
                (5, _) => self.page_in(view),
                (6..=7, Some(list)) => self.run(format_args!("next {view} {list} 0")).ignore(),
                _ => {}
            }
        }
    }

    /// Every list is taken, and some go in any order: numbers that a unit is given don't ascend.
    fn come_to_the_last_list(&mut self) {
        self.fill_lists();
        let Some(state) = self.state(0) else { return };
        let mut lists = state.lists().to_vec();
        for _ in 0..self.random.between(2, 6).min(lists.len() as u64) {
            let list = lists.swap_remove(self.random.below(lists.len() as u64) as usize);
            let answer = self.run(format_args!("dellist 0 {list}")).answer;
            self.make_room(answer);
        }
    }

    /// Lists are taken until no number is free; those that `unit` holds are given to nobody, whether it has deleted them or
    /// not.
    fn run_out_of_lists(&mut self, unit: u64) {
        let others = self.units(true);
        for _ in 0..=2 * LISTS {
            let other = self.random.pick_if_any(&others).unwrap_or(0);
            let stream = self.random.pick(&[0, 0, unit, other]);
            match self.run(format_args!("newlist {stream}")).answer {
                NONE_FREE => break,
                answer => self.make_room(answer),
            }
        }
        if let Some(list) = self.random.pick_if_any(&self.lists_taken_in(unit)) {
            self.run(format_args!("dellist {unit} {list}"));
        }
        for stream in [0, unit, self.random.pick_if_any(&others).unwrap_or(0)] {
            self.run(format_args!("newlist {stream}"));
        }
    }

    /// The journal of `unit` gets full of lists and what is on them; then it takes one more.
    fn fill_journal_and_take(&mut self, unit: u64) {
        for _ in 0..2 * JOURNAL {
            if self.shell.record().unit(unit as u8).journal().len() == JOURNAL {
                break;
            }
            self.change_own_lists(unit);
        }
        if self.run(format_args!("newlist {unit}")).answer == JOURNAL_FULL {
            self.run(format_args!("newlist 0"));
        }
    }

    /// The queue gets full: a unit takes lists all the same, and stream 0 does not.
    fn fill_queue_and_take(&mut self, unit: u64) {
        for _ in 0..2 {
            self.fill_queue();
        }
        for stream in [unit, 0, unit] {
            self.run(format_args!("newlist {stream}"));
        }
        self.run(format_args!("end {unit}"));
        self.lists_in_views();
        self.run(format_args!("newlist 0"));
    }

    /// Someone else adds an entry to the card that takes a list which `unit` holds, or puts a block which it holds: the record
    /// is not sound then, though it lists the free numbers and no other.
    fn take_a_held_list_on_the_card(&mut self, unit: u64) {
        self.run(format_args!("flush 65535"));
        let list = self.random.pick_if_any(&self.lists_taken_in(unit));
        let held = self.shell.record().unit(unit as u8).held_blocks;
        let blocks: Vec<u8> = (1..=BLOCKS).filter(|&block| held.has(block)).collect();
        let committed = self.state(0).and_then(|state| self.random.pick_if_any(state.lists()));
        let change = match (list, self.random.pick_if_any(&blocks), committed) {
            (_, Some(block), Some(list)) if self.random.chance(50) => Change::PutFirst { block, list },
            (Some(list), _, _) => Change::TakeList { list },
            _ => return self.new_list(unit),
        };
        if self.shell.record().queue_length() > 0 {
            return;
        }
        self.add_on_the_card(change);
        for _ in 0..self.random.between(1, 3) {
            self.any_call();
        }
        self.repair();
    }

    /// `unit` ends, is refused 12, or is lost by a cut or a mount; or it goes on.
    fn leave_unit(&mut self, unit: u64) {
        match self.random.below(20) {
            0..=5 => {
                let answer = self.end_unit(unit);
                self.make_room(answer);
            }
            6..=9 => self.make_conflict(unit),
            10..=13 => {
                let answer = self.run(format_args!("end {unit}")).answer;
                self.make_room(answer);
                self.cut_near_the_end();
            }
            14 => self.mount(),
            15 => self.cut(),
            16 => self.flush(),
            _ => {}
        }
    }

    /// A list that `unit` deletes is deleted on stream 0 too; then the unit ends.
    fn make_conflict(&mut self, unit: u64) {
        let Some(list) = self.run(format_args!("newlist 0")).number.filter(|&list| list > 0) else {
            self.run(format_args!("flush 65535"));
            return self.delete_list(0);
        };
        self.run(format_args!("dellist {unit} {list}"));
        self.run(format_args!("dellist 0 {list}"));
        if self.random.chance(30) {
            self.lists_in_views();
        }
        self.end_unit(unit);
    }

    /// The power leaves a flush of the whole queue at its last store, or a few before.
    fn cut_near_the_end(&mut self) {
        let record = *self.shell.record();
        let stores = stores_of_queue(&record, record.queue_length()).saturating_sub(record.done());
        let left = self.random.pick(&[0, 1, 1, 1, 2, 3, 40]);
        self.run(format_args!("cut flush 65535 {}", stores.saturating_sub(left)));
        self.after_cut();
    }
}
