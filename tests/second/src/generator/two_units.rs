//! Two units that are to end, and the looks after their Ends: document 02, E12.

use std::collections::BTreeSet;

use super::arguments::blocks_of;
use super::{Action, Generator, Profile};
use crate::either_order::{entries_of, premise, touched, Unmet};
use crate::entry::Change;
use crate::limits::{JOURNAL, QUEUE, UNITS};
use crate::shell::Shell;
use crate::state::State;

/// What has happened on the card before the two units begin.
const HISTORY: Profile = Profile {
    actions: &[
        (Action::Change, 40),
        (Action::Begin, 8),
        (Action::End, 8),
        (Action::Races, 4),
        (Action::Lists, 3),
        (Action::Numbers, 2),
        (Action::Conflict, 2),
        (Action::Flush, 8),
        (Action::CutFlush, 3),
        (Action::Mount, 3),
    ],
    segments: (14, 24),
    lines: (10, 200),
};

/// Segments that both units, what is queued before them and what is set up for them may need.
const SEGMENTS_TO_SPARE: usize = 12;

/// Setting lists up leaves so many blocks free; fewer are free only where nearly all are to be in use.
const BLOCKS_TO_SPARE: usize = 14;

/// How many changes a unit makes.
const LENGTHS: &[usize] = &[0, 1, 1, 2, 3, 4, 5, 6, 8, 11, JOURNAL, JOURNAL];

/// What two units are brought to.
#[derive(Clone, Copy, PartialEq, Eq)]
enum Aim {
    /// The premise.
    Premise,
    /// Some lists that both touch.
    SharedLists,
    /// A queue that doesn't take both.
    ShortQueue,
    /// An End that is refused 12.
    Conflict,
}

/// A script up to the Ends of two units, and the looks at the disk after them.
pub struct TwoUnits {
    /// The units.
    pub units: [u8; 2],
    /// The shell before the Ends.
    pub shell: Shell,
    before: Vec<Vec<u8>>,
    looks: Vec<Vec<u8>>,
}

/// The script of `seed` that brings two units to their Ends: four times in five to the premise of E12.
pub fn two_units(seed: u64) -> TwoUnits {
    let mut before = Vec::new();
    let mut observer = |line: &[u8], _: &str, _: &mut Shell| before.push(line.to_vec());
    let mut generator = Generator::new(seed, &HISTORY, &mut observer);
    generator.write_script();
    generator.lines_left = usize::MAX;
    let units = generator.bring_to_their_ends();
    let shell = generator.shell.clone();
    for unit in units {
        generator.run(format_args!("end {unit}"));
    }
    let lines_left = generator.lines_left;
    generator.look_afterwards();
    let looks = lines_left - generator.lines_left;
    let looks = before.split_off(before.len() - looks);
    before.truncate(before.len() - units.len());
    TwoUnits {
        units: units.map(|unit| unit as u8),
        shell,
        before,
        looks,
    }
}

impl TwoUnits {
    /// The script in which the units end in the order given.
    pub fn script(&self, order: [u8; 2]) -> Vec<u8> {
        let ends = order.map(|unit| format!("end {unit}").into_bytes());
        let lines = self.before.iter().chain(&ends).chain(&self.looks);
        lines.flat_map(|line| [line, &b"\n"[..]].concat()).collect()
    }

    /// What E12 says of the units, in words: which changes they have made if it claims something, else why it doesn't.
    pub fn heading(&self) -> String {
        match premise(&self.shell, self.units) {
            Ok(()) => format!("claimed: {}", Vec::from_iter(self.changes()).join(", ")),
            Err(Unmet::Open) => "not claimed: a unit is closed".to_string(),
            Err(Unmet::Accepted(refusal)) => format!("not claimed: an End is refused {}", refusal.number()),
            Err(Unmet::Queue) => "not claimed: the queue doesn't take both".to_string(),
            Err(Unmet::Apart) => "not claimed: a list in common".to_string(),
        }
    }

    /// The kinds of changes that the units have made.
    fn changes(&self) -> BTreeSet<&'static str> {
        let mut kinds = BTreeSet::new();
        for unit in self.units.map(|unit| self.shell.record().unit(unit)) {
            if unit.journal().is_empty() {
                kinds.insert("no change");
            }
            kinds.extend(unit.journal().iter().map(|&change| match change {
                Change::TakeList { .. } => "a list taken",
                Change::PutFirst { .. } | Change::PutAfter { .. } => "a put",
                Change::Write { race: 0, .. } => "a write",
                Change::Write { .. } => "a write for a race",
                Change::DeleteBlock { .. } => "a block deleted",
                Change::DeleteList { .. } => "a list deleted",
            }));
        }
        kinds
    }
}

impl Generator<'_> {
    /// Two units are opened and changed until they are to end.
    fn bring_to_their_ends(&mut self) -> [u64; 2] {
        let aim = self.random.pick_weighted(&[
            (Aim::Premise, 76),
            (Aim::SharedLists, 14),
            (Aim::ShortQueue, 6),
            (Aim::Conflict, 4),
        ]);
        self.go_on_with_a_sound_record();
        self.set_lists_up();
        let units = self.two_units_begun();
        let mut own = self.lists_for_two();
        let mut lengths = [self.random.pick(LENGTHS), self.random.pick(LENGTHS)];
        if aim == Aim::SharedLists {
            own[0].truncate(self.random.between(1, 2) as usize);
            own[1] = own[0].clone();
            // which of few changes touches the list decides
            if self.random.chance(60) {
                lengths = lengths.map(|length| length.clamp(1, 2));
            }
        }
        self.change_both(units, &own, lengths);
        if aim == Aim::Conflict {
            self.delete_what_is_touched(units);
        }
        self.fit_the_queue(units, aim);
        units
    }

    /// The history may have stopped anywhere.
    fn go_on_with_a_sound_record(&mut self) {
        self.repair();
        self.run(format_args!("lend all"));
        if self.shell.versions().is_none() {
            self.run(format_args!("mount"));
        }
        let used = self.shell.versions().map(|versions| versions.log.used);
        if used.is_none_or(|used| used + SEGMENTS_TO_SPARE > self.segments()) {
            self.new_card();
        }
    }

    /// Several lists with blocks, some of them written; now and then nearly every block is in use, so that those freed come
    /// again soon. Some of it is on the card, some in the queue.
    fn set_lists_up(&mut self) {
        if self.random.chance(30) {
            self.leave_few_blocks();
        }
        for _ in 0..self.random.between(2, 7) {
            let answer = self.run(format_args!("newlist 0")).answer;
            self.make_room(answer);
        }
        let lists = self.state(0).map_or(Vec::new(), |state| state.lists().to_vec());
        for list in lists {
            let mut last = 0;
            for _ in 0..self.random.below(4) {
                if self.free_blocks() < BLOCKS_TO_SPARE {
                    break;
                }
                let made = self.run(format_args!("newblock 0 {list} {last}"));
                self.make_room(made.answer);
                let Some(block) = made.number.filter(|_| made.is_accepted()) else {
                    continue;
                };
                last = self.random.pick(&[0, block]);
                if self.random.chance(60) {
                    let answer = self.write_for_a_race(0, block);
                    self.make_room(answer);
                }
            }
        }
        match self.random.below(6) {
            0..=1 => self.run(format_args!("flush 65535")).ignore(),
            2 => self.flush_a_part(),
            3 => {
                self.run(format_args!("flush 65535"));
                self.run(format_args!("mount"));
            }
            _ => {}
        }
    }

    fn flush_a_part(&mut self) {
        let allowance = self.allowance();
        self.run(format_args!("flush {allowance}"));
    }

    /// Any two units begin, and now and then others that change something and stay open. What the two were before ends.
    fn two_units_begun(&mut self) -> [u64; 2] {
        let one = self.random.below(u64::from(UNITS));
        let other = (one + self.random.between(1, u64::from(UNITS) - 1)) % u64::from(UNITS);
        let units = [one, other].map(|unit| unit + 1);
        for unit in units {
            // once more where the queue was full
            for _ in 0..2 {
                if self.units(true).contains(&unit) {
                    let answer = self.run(format_args!("end {unit}")).answer;
                    self.make_room(answer);
                }
            }
            self.begin_unit(unit);
        }
        for unit in self.units(false) {
            if self.random.chance(25) {
                self.begin_unit(unit);
                self.change_on(unit);
            }
        }
        units
    }

    /// The committed lists that each of two units is to change; some are left for others.
    fn lists_for_two(&mut self) -> [Vec<u8>; 2] {
        let mut own = [Vec::new(), Vec::new()];
        let lists = self.state(0).map_or(Vec::new(), |state| state.lists().to_vec());
        for list in lists {
            if let Some(whose) = self.random.pick(&[Some(0), Some(0), Some(1), Some(1), None]) {
                own[whose].push(list);
            }
        }
        own
    }

    fn journal_length(&self, unit: u64) -> usize {
        self.shell.record().unit(unit as u8).journal().len()
    }

    /// Both units make changes, each on its own lists, in any order, while others change what they can without a conflict.
    fn change_both(&mut self, units: [u64; 2], own: &[Vec<u8>; 2], lengths: [usize; 2]) {
        for _ in 0..8 * JOURNAL {
            let unfinished: Vec<usize> = (0..units.len())
                .filter(|&which| self.journal_length(units[which]) < lengths[which])
                .collect();
            let Some(which) = self.random.pick_if_any(&unfinished) else {
                break;
            };
            match self.random.below(100) {
                0..=77 => self.change_own(units[which], &own[which]),
                78..=86 => self.change_beside(own),
                87..=90 => {
                    let others = self.units(true).into_iter().filter(|unit| !units.contains(unit));
                    let others: Vec<u64> = others.collect();
                    if let Some(other) = self.random.pick_if_any(&others) {
                        self.change_on(other);
                    }
                }
                91 => self.put_elsewhere(),
                92..=95 => self.flush_a_part(),
                _ => {
                    let view = self.random.pick(&[units[0], units[1], 0]);
                    self.show_view(view);
                }
            }
        }
    }

    /// A change in `unit` of one of these lists, or of a list that it has taken itself.
    fn change_own(&mut self, unit: u64, lists: &[u8]) {
        let Some(view) = self.state(unit) else { return };
        let mut lists = [lists, &self.lists_taken_in(unit)].concat();
        lists.retain(|&list| view.is_taken(list));
        let blocks: Vec<u8> = lists.iter().flat_map(|&list| view.blocks_on(list)).collect();
        let (list, block) = (self.random.pick_if_any(&lists), self.random.pick_if_any(&blocks));
        match (self.random.below(20), list, block) {
            (0..=1, _, _) | (_, None, _) => self.new_list(unit),
            (2, Some(list), _) => self.run(format_args!("dellist {unit} {list}")).ignore(),
            (3..=5, _, Some(block)) => self.run(format_args!("delblock {unit} {block}")).ignore(),
            (6..=10, Some(list), _) | (_, Some(list), None) => self.put_on_list(unit, &view, list),
            (_, _, Some(block)) => {
                self.write_for_a_race(unit, u64::from(block));
            }
        }
    }

    /// A block is put first on a list or behind any of its blocks.
    fn put_on_list(&mut self, stream: u64, view: &State, list: u8) {
        let blocks: Vec<u8> = view.blocks_on(list).collect();
        let predecessor = self.random.pick_if_any(&blocks).filter(|_| self.random.chance(60));
        let predecessor = predecessor.unwrap_or(0);
        let answer = self.run(format_args!("newblock {stream} {list} {predecessor}")).answer;
        self.make_room(answer);
    }

    /// A change on stream 0: a put or a write on any list, a deletion only of what neither unit has for its own.
    fn change_beside(&mut self, own: &[Vec<u8>; 2]) {
        let Some(state) = self.state(0) else { return };
        let spare = |list: &u8| !own.iter().any(|lists| lists.contains(list));
        let spare: Vec<u8> = state.lists().iter().copied().filter(spare).collect();
        let spare_blocks: Vec<u8> = spare.iter().flat_map(|&list| state.blocks_on(list)).collect();
        let (list, block) = (
            self.random.pick_if_any(state.lists()),
            self.random.pick_if_any(&blocks_of(&state)),
        );
        let (spare, spare_block) = (self.random.pick_if_any(&spare), self.random.pick_if_any(&spare_blocks));
        let answer = match self.random.below(8) {
            0..=2 => block.and_then(|block| self.write_for_a_race(0, u64::from(block))),
            3..=4 => {
                if let Some(list) = list {
                    self.put_on_list(0, &state, list);
                }
                None
            }
            5 => self.run(format_args!("newlist 0")).answer,
            6 => spare_block.and_then(|block| self.run(format_args!("delblock 0 {block}")).answer),
            _ => spare.and_then(|list| self.run(format_args!("dellist 0 {list}")).answer),
        };
        self.make_room(answer);
    }

    /// A block is deleted on stream 0 and put again under its number, where few are free, perhaps on another list: what a unit
    /// has done to it applies there.
    fn put_elsewhere(&mut self) {
        if self.free_blocks() >= BLOCKS_TO_SPARE {
            return;
        }
        let blocks = self.state(0).map(|state| blocks_of(&state)).unwrap_or_default();
        if let Some(block) = self.random.pick_if_any(&blocks) {
            let answer = self.run(format_args!("delblock 0 {block}")).answer;
            self.make_room(answer);
            self.until_given(u64::from(block));
        }
    }

    /// A list goes that one of the units touches.
    fn delete_what_is_touched(&mut self, units: [u64; 2]) {
        let unit = self.random.pick(&units) as u8;
        let Some(state) = self.state(0) else { return };
        let touched = touched(self.shell.record().unit(unit).journal(), &state);
        let lists = state.lists().iter().copied().filter(|&list| touched.has(list));
        if let Some(list) = self.random.pick_if_any(&lists.collect::<Vec<u8>>()) {
            let answer = self.run(format_args!("dellist 0 {list}")).answer;
            self.make_room(answer);
        }
    }

    /// The queue comes to take both units, often exactly; or to take fewer.
    fn fit_the_queue(&mut self, units: [u64; 2], aim: Aim) {
        let entries = entries_of(&self.shell, units.map(|unit| unit as u8));
        if self.shell.record().queue_room() < entries {
            self.run(format_args!("flush 65535"));
        }
        let fewer = self.random.below(entries as u64) as usize;
        match (aim, self.random.below(10)) {
            (Aim::ShortQueue, 0..=5) => self.leave_room(entries - 1),
            (Aim::ShortQueue, _) => self.leave_room(fewer),
            (_, 0..=2) => self.leave_room(entries),
            (_, 3) => self.leave_room(entries + 1),
            (_, 4..=5) => self.flush_a_part(),
            _ => {}
        }
    }

    /// Writes on stream 0 until the queue takes so many entries and no more.
    fn leave_room(&mut self, entries: usize) {
        for _ in 0..2 * QUEUE {
            if self.shell.record().queue_room() <= entries {
                break;
            }
            let blocks = self.state(0).map(|state| blocks_of(&state)).unwrap_or_default();
            match self.random.pick_if_any(&blocks) {
                Some(block) => self.write_for_a_race(0, u64::from(block)),
                None => self.run(format_args!("newlist 0")).answer,
            };
        }
    }

    /// Everything in the views after the Ends, before and after a flush, and after a mount; numbers are asked for where a cut or
    /// the end of the script comes next, so that no view shows them.
    fn look_afterwards(&mut self) {
        for view in [0, 5].into_iter().chain(self.units(true)) {
            self.show_view(view);
        }
        self.run(format_args!("inventory 0"));
        self.run(format_args!("page 0 1000"));
        self.run(format_args!("flush 65535"));
        self.show_view(0);
        self.show_view(5);
        self.ask_for_what_is_free();
        self.run(format_args!("cut"));
        self.run(format_args!("mount"));
        self.show_view(0);
        self.show_view(5);
        self.run(format_args!("inventory 0"));
        self.ask_for_what_is_free();
    }

    fn show_view(&mut self, view: u64) {
        self.run(format_args!("show {view}"));
        self.run(format_args!("sum"));
    }

    /// Every list that is free, then blocks as far as the queue takes them.
    fn ask_for_what_is_free(&mut self) {
        let free = self.shell.record().free;
        let lists = free.lists.listed().len();
        for _ in 0..lists {
            self.run(format_args!("newlist 0"));
        }
        let Some(list) = self.state(0).and_then(|state| state.lists().first().copied()) else {
            return;
        };
        for _ in 0..free.blocks.listed().len().min(QUEUE - lists) {
            self.run(format_args!("newblock 0 {list} 0"));
        }
    }
}
