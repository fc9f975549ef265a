//! Changes, look-ups and units, one at a time and in rows.

use super::arguments::blocks_of;
use super::Generator;
use crate::limits::{BLOCKS, BLOCK_BYTES, JOURNAL, LISTS, QUEUE};

/// Answers of calls that end a row.
const NONE_FREE: Option<u64> = Some(10);
const QUEUE_FULL: Option<u64> = Some(13);

impl Generator<'_> {
    // ---- One call ----------------------------------------------------------------------------------------------

    /// A change on some stream.
    pub(super) fn change(&mut self) {
        let stream = self.stream();
        self.change_on(stream);
    }

    /// A change on `stream`, of a kind that is likely to be accepted there.
    pub(super) fn change_on(&mut self, stream: u64) {
        let state = self.state(stream);
        let lists = state.map_or(0, |state| state.lists().len());
        let blocks = state.map_or(0, |state| blocks_of(&state).len());
        match self.random.below(100) {
            0..=1 => self.delete_list(stream),
            2..=4 => self.new_list(stream),
            5..=89 if lists == 0 => self.new_list(stream),
            5..=19 if lists < 3 => self.new_list(stream),
            5..=89 if blocks == 0 => self.new_block(stream),
            20..=39 if blocks < 5 => self.new_block(stream),
            5..=7 => self.delete_list(stream),
            8..=17 => self.delete_block(stream),
            18..=49 => self.new_block(stream),
            _ => self.write(stream),
        }
    }

    pub(super) fn new_list(&mut self, stream: u64) {
        self.run(format_args!("newlist {stream}"));
    }

    pub(super) fn new_block(&mut self, stream: u64) {
        let state = self.state(stream);
        let list = self.list(state.as_ref());
        let predecessor = self.predecessor(state.as_ref(), list);
        let made = self.run(format_args!("newblock {stream} {list} {predecessor}"));
        if let (true, Some(block)) = (made.is_accepted() && self.random.chance(15), made.number) {
            let view = if self.random.chance(60) { stream } else { self.view() };
            self.run(format_args!("read {view} {block}"));
        }
    }

    pub(super) fn write(&mut self, stream: u64) {
        let state = self.state(stream);
        let block = self.block(state.as_ref());
        let hex = self.hex();
        let part_and_race = self.part_and_race();
        self.run(format_args!("write {stream} {block} {hex}{part_and_race}"));
    }

    pub(super) fn delete_block(&mut self, stream: u64) {
        let state = self.state(stream);
        let block = self.block(state.as_ref());
        self.run(format_args!("delblock {stream} {block}"));
    }

    pub(super) fn delete_list(&mut self, stream: u64) {
        let state = self.state(stream);
        let list = self.list(state.as_ref());
        self.run(format_args!("dellist {stream} {list}"));
    }

    /// A look-up, or a look at every block of a list.
    pub(super) fn look_up(&mut self) {
        let view = self.view();
        let state = self.state(view);
        match self.random.below(11) {
            0..=3 => {
                let block = self.block_to_read(state.as_ref());
                let part = self.part(BLOCK_BYTES as u64);
                self.run(format_args!("read {view} {block}{part}"));
            }
            4..=6 => {
                let list = self.list(state.as_ref());
                let predecessor = self.predecessor(state.as_ref(), list);
                self.run(format_args!("next {view} {list} {predecessor}"));
            }
            7 => {
                let list = self.list(state.as_ref());
                let mut block = 0;
                while let Some(next @ 1..) = self.run(format_args!("next {view} {list} {block}")).number {
                    block = next;
                }
            }
            8 => {
                let part = self.part(u64::from(LISTS));
                self.run(format_args!("inventory {view}{part}"));
            }
            9 => self.page_in(view),
            _ => self.conflicts(),
        }
    }

    /// Everything in a view, what the lister says, or the sum of the card. Lines of several commands that begin alike
    /// are kept apart by the sum.
    pub(super) fn show(&mut self) {
        match self.random.below(10) {
            0..=6 => {
                let view = self.view();
                self.run(format_args!("show {view}"));
            }
            7..=8 => self.run(format_args!("list")).ignore(),
            _ => {}
        }
        self.run(format_args!("sum"));
    }

    pub(super) fn begin(&mut self) {
        let unit = self.unit(false);
        let window = self.window();
        self.run(format_args!("begin {unit}{window}"));
    }

    /// A unit ends; if none is open, most of the time one begins.
    pub(super) fn end(&mut self) {
        if self.units(true).is_empty() && self.random.chance(85) {
            return self.begin();
        }
        let unit = self.unit(true);
        self.run(format_args!("end {unit}"));
    }

    // ---- Rows of calls -----------------------------------------------------------------------------------------

    /// Lists are taken until no number is free.
    pub(super) fn fill_lists(&mut self) {
        for _ in 0..=LISTS {
            let stream = if self.random.chance(90) { 0 } else { self.stream() };
            let answer = self.run(format_args!("newlist {stream}")).answer;
            if answer == NONE_FREE {
                break;
            }
            self.make_room(answer);
        }
    }

    /// Blocks are made until no number is free.
    pub(super) fn fill_blocks(&mut self) {
        for _ in 0..=BLOCKS {
            let stream = if self.random.chance(90) { 0 } else { self.stream() };
            let Some(state) = self.state(stream) else {
                continue;
            };
            let Some(list) = self.random.pick_if_any(state.lists()) else {
                return self.new_list(0);
            };
            let predecessor = self.predecessor(Some(&state), u64::from(list));
            let line = format!("newblock {stream} {list} {predecessor}");
            let answer = self.run(format_args!("{line}")).answer;
            if answer == NONE_FREE {
                break;
            }
            self.make_room(answer);
        }
    }

    /// Drains the queue if it has refused an entry.
    pub(super) fn make_room(&mut self, answer: Option<u64>) {
        if answer == QUEUE_FULL {
            self.run(format_args!("flush 65535"));
        }
    }

    /// A unit is changed until its journal is full, and a little longer.
    pub(super) fn fill_journal(&mut self) {
        let unit = self.opened_unit();
        let changes = self.random.between(JOURNAL as u64 - 3, JOURNAL as u64 + 2);
        for _ in 0..changes {
            self.change_on(unit);
        }
        if self.random.chance(70) {
            self.run(format_args!("end {unit}"));
        }
    }

    /// Simple changes until the queue is full, or nearly.
    pub(super) fn fill_queue(&mut self) {
        let entries = self.random.between(QUEUE as u64 / 2, QUEUE as u64 + 2);
        let writes = self.random.chance(50);
        for _ in 0..entries {
            if self.shell.record().queue_room() == 0 && self.random.chance(60) {
                break;
            }
            let has_blocks = self.state(0).is_some_and(|state| !blocks_of(&state).is_empty());
            if writes && has_blocks && self.random.chance(90) {
                self.write(0);
            } else {
                self.change_on(0);
            }
        }
    }

    /// Units begun and ended without a change.
    pub(super) fn empty_units(&mut self) {
        let unit = self.random.between(1, 4);
        for _ in 0..self.random.between(5, 40) {
            self.begin_unit(unit);
            let answer = self.run(format_args!("end {unit}")).answer;
            self.make_room(answer);
        }
    }

    /// The number of a unit that is open, opened if none is.
    pub(super) fn opened_unit(&mut self) -> u64 {
        let open = self.units(true);
        let closed = self.units(false);
        if closed.is_empty() || (!open.is_empty() && self.random.chance(50)) {
            return self.random.pick(&open);
        }
        let unit = self.random.pick(&closed);
        self.begin_unit(unit);
        unit
    }

    /// A unit changes a block or a list which is then deleted on another stream; then it ends.
    pub(super) fn conflict(&mut self) {
        let unit = self.opened_unit();
        if self.random.chance(30) {
            self.change_on(unit);
        }
        let Some(state) = self.state(0) else { return };
        let blocks = blocks_of(&state);
        let Some(block) = self.random.pick_if_any(&blocks) else {
            return self.new_block(0);
        };
        let Some(list) = state.list_of(block) else { return };
        let hex = self.hex();
        match self.random.below(5) {
            0..=1 => self.run(format_args!("write {unit} {block} {hex}")),
            2 => self.run(format_args!("newblock {unit} {list} {block}")),
            3 => self.run(format_args!("delblock {unit} {block}")),
            _ => self.run(format_args!("dellist {unit} {list}")),
        };
        self.delete_on_another_stream(unit, block, list);
        if self.random.chance(50) {
            self.run(format_args!("show {unit}"));
            self.run(format_args!("sum"));
        }
        if self.random.chance(30) {
            self.change_on(unit);
        }
        if self.random.chance(30) {
            self.fill_queue();
        }
        self.end_unit(unit);
    }

    /// Deletes a block, or its list, on stream 0 or in a unit that ends.
    fn delete_on_another_stream(&mut self, unit: u64, block: u8, list: u8) {
        let others: Vec<u64> = (1..=4).filter(|&other| other != unit).collect();
        let stream = if self.random.chance(70) {
            0
        } else {
            self.random.pick(&others)
        };
        if stream != 0 && !self.units(true).contains(&stream) {
            self.begin_unit(stream);
        }
        if self.random.chance(60) {
            self.run(format_args!("delblock {stream} {block}"));
        } else {
            self.run(format_args!("dellist {stream} {list}"));
        }
        if stream != 0 {
            self.run(format_args!("end {stream}"));
        }
    }

    /// A block is put, by stream 0 or in a unit, or put again; it is read before it is written and after, in every view.
    /// "Reading a block that, by that view's state, was not written since its present put is now refused [..]. A write of
    /// 256 zeros counts as written."
    pub(super) fn unwritten(&mut self) {
        let put_again = if self.random.chance(40) { self.put_again() } else { None };
        let unit = self.opened_unit();
        let putter = self.random.pick(&[0, unit]);
        let Some(block) = put_again.or_else(|| self.put_on(putter)) else {
            return;
        };
        self.read_in_views(block);
        if self.random.chance(40) {
            self.flush();
            self.read_in_views(block);
        }
        let writer = self.random.pick(&[0, unit, unit, putter]);
        let data = self.hex();
        let hex = if self.random.chance(30) { "-" } else { &data };
        self.run(format_args!("write {writer} {block} {hex}"));
        self.read_in_views(block);
        match self.random.below(4) {
            0..=1 => self.run(format_args!("end {unit}")).ignore(),
            2 => self.mount(),
            _ => {}
        }
        if self.random.chance(60) {
            self.flush();
        }
        self.read_in_views(block);
    }

    /// A block put on `stream`.
    fn put_on(&mut self, stream: u64) -> Option<u64> {
        let state = self.state(stream)?;
        let list = match self.random.pick_if_any(state.lists()) {
            Some(list) => u64::from(list),
            None => self.run(format_args!("newlist {stream}")).number?,
        };
        let predecessor = self.predecessor(Some(&state), list);
        let made = self.run(format_args!("newblock {stream} {list} {predecessor}"));
        made.number.filter(|_| made.is_accepted())
    }

    /// A block deleted, or its list, and put again: it comes after those that have been free longer.
    fn put_again(&mut self) -> Option<u64> {
        if self.random.chance(20) {
            self.leave_few_blocks();
        }
        let state = self.state(0)?;
        let mut blocks = blocks_of(&state);
        if self.random.chance(70) {
            blocks.retain(|&block| state.written(block).is_some());
        }
        let block = self.random.pick_if_any(&blocks)?;
        let list = state.list_of(block)?;
        if self.random.chance(75) {
            self.run(format_args!("delblock 0 {block}"));
        } else {
            self.run(format_args!("dellist 0 {list}"));
        }
        if self.random.chance(50) {
            self.run(format_args!("flush 65535"));
            self.run(format_args!("mount"));
        }
        self.until_given(u64::from(block))
    }

    /// Reads `block` in view 0, in the views of open units and in view 5, each most of the time.
    pub(super) fn read_in_views(&mut self, block: u64) {
        let mut views = self.units(true);
        views.extend([0, 5]);
        for view in views {
            if self.random.chance(60) {
                self.run(format_args!("read {view} {block}"));
            }
        }
        if self.random.chance(20) {
            self.show();
        }
    }

    /// A list or block that a unit has changed is deleted and made again under its number: "a block deleted and made
    /// again under its number satisfies the unit".
    pub(super) fn made_again(&mut self) {
        let makes_list = self.random.chance(50);
        if makes_list {
            self.fill_lists();
        } else {
            self.fill_blocks();
        }
        let unit = self.opened_unit();
        let Some(state) = self.state(0) else { return };
        let blocks = blocks_of(&state);
        let Some(block) = self.random.pick_if_any(&blocks) else {
            return;
        };
        let Some(list) = state.list_of(block) else { return };
        let hex = self.hex();
        let other_list = self.random.pick(state.lists());
        let list_again = if self.random.chance(50) { list } else { other_list };
        if makes_list {
            self.run(format_args!("newblock {unit} {list} 0"));
            self.run(format_args!("dellist 0 {list}"));
            self.run(format_args!("show {unit}"));
            self.run(format_args!("newlist 0"));
        } else {
            if self.random.chance(50) {
                self.run(format_args!("write {unit} {block} {hex}"));
            } else {
                self.run(format_args!("newblock {unit} {list} {block}"));
            }
            self.run(format_args!("delblock 0 {block}"));
            self.run(format_args!("read {unit} {block}"));
            self.run(format_args!("newblock 0 {list_again} 0"));
            self.run(format_args!("read {unit} {block}"));
            self.run(format_args!("read 0 {block}"));
        }
        self.run(format_args!("end {unit}"));
        self.run(format_args!("show 0"));
        self.run(format_args!("sum"));
    }
}
