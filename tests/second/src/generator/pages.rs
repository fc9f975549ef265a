//! Pages: lists that end at the end of a line or begin another, in every view.

use super::Generator;
use crate::limits::{BLOCKS, LISTS};
use crate::page::{self, LINE_BYTES, LONGEST};

/// How many blocks a list gets: around full lines, and all that there are.
const LENGTHS: &[usize] = &[0, 1, 10, 11, 12, 21, 22, 23, 33, 34, 44, 45, 55, 56, 64];
/// Bytes that the shell lends where the line names none, and the most that it lends.
const LENT: usize = 820;
const MOST: usize = 1_000;

impl Generator<'_> {
    /// The page of some view.
    pub(super) fn page(&mut self) {
        let view = self.view();
        self.page_in(view);
    }

    /// The page of `view`: in the shell's buffer, or in one whose length is near the text's or at a border.
    pub(super) fn page_in(&mut self, view: u64) {
        let text = self.state(view).map_or(0, |state| page::length(&state));
        let length = match self.random.below(100) {
            0..=49 => return self.run(format_args!("page {view}")).ignore(),
            50..=64 => text,
            65..=74 => text.saturating_sub(1),
            75..=79 => text + 1,
            80..=84 => text.saturating_sub(LINE_BYTES),
            85..=94 => self
                .random
                .pick(&[0, 1, LENT - 1, LENT, LENT + 1, LONGEST - 1, LONGEST, MOST]),
            95..=97 => self.random.below(MOST as u64 + 1) as usize,
            _ => self.random.pick(&[MOST + 1, MOST + 2, 1 << 16, 1 << 32]),
        };
        self.run(format_args!("page {view} {length}"));
    }

    /// The pages of view 0, of open units and of view 5, each most of the time.
    fn page_in_views(&mut self) {
        let mut views = self.units(true);
        views.extend([0, 5]);
        for view in views {
            if self.random.chance(70) {
                self.page_in(view);
            }
        }
        self.run(format_args!("sum"));
    }

    /// A list gets so many blocks that a line is full, or one more; a unit puts and deletes some of them; their pages in
    /// every view, before and after what comes then.
    pub(super) fn pages(&mut self) {
        if self.random.chance(35) {
            self.retake_lists();
        }
        let blocks = self.random.pick(LENGTHS);
        let Some(list) = self.list_with(blocks) else { return };
        self.page_in_views();
        let unit = self.opened_unit();
        for _ in 0..self.random.below(4) {
            self.change_of(unit, list);
        }
        self.page_in_views();
        match self.random.below(6) {
            0..=1 => self.run(format_args!("end {unit}")).ignore(),
            2 => self.flush(),
            3 => self.mount(),
            4 => self.cut_flush(),
            _ => {}
        }
        self.page_in_views();
    }

    /// Every list taken, and so many blocks on one of them that it has six lines.
    pub(super) fn longest_page(&mut self) {
        self.fill_lists();
        let blocks = self.random.between(55, 57) as usize;
        if self.list_with(blocks).is_some() {
            self.fill_lists();
            self.page_in_views();
            let view = self.random.pick(&[0, 5]);
            self.run(format_args!("flush 65535"));
            self.run(format_args!("page {view}"));
            self.run(format_args!("page {view} {MOST}"));
        }
    }

    /// Lists are deleted and taken again, so that they don't stand in the order of their numbers: that comes once all have been
    /// used.
    fn retake_lists(&mut self) {
        if self.random.chance(50) {
            self.fill_lists();
        } else {
            self.new_list(0);
        }
        for _ in 0..self.random.between(1, 3) {
            self.delete_list(0);
        }
        if self.random.chance(60) {
            self.run(format_args!("flush 65535"));
            self.run(format_args!("mount"));
        }
        for _ in 0..self.random.between(1, 3) {
            self.new_list(0);
        }
    }

    /// A list that has `blocks` blocks in view 0 now, if that could be had: blocks are put or deleted on stream 0, and
    /// other lists go where no block is free.
    fn list_with(&mut self, blocks: usize) -> Option<u8> {
        let state = self.state(0)?;
        let list = match self.random.pick_if_any(state.lists()) {
            Some(list) => list,
            None => self.run(format_args!("newlist 0")).number? as u8,
        };
        // Each turn puts or deletes a block, deletes a list or drains the queue; more than these there are not.
        for _ in 0..3 * usize::from(BLOCKS) + usize::from(LISTS) {
            let state = self.state(0)?;
            let on_list: Vec<u8> = state.blocks_on(list).collect();
            let outcome = match on_list.len() {
                length if length == blocks => return Some(list),
                length if length > blocks => {
                    let block = self.random.pick(&on_list);
                    self.run(format_args!("delblock 0 {block}"))
                }
                _ => {
                    let predecessor = self.random.pick_if_any(&on_list).unwrap_or(0);
                    self.run(format_args!("newblock 0 {list} {predecessor}"))
                }
            };
            match outcome.answer {
                Some(0) => {}
                Some(10) => self.empty_another_list(list)?,
                Some(13) => {
                    let flushed = self.run(format_args!("flush 65535"));
                    flushed.number.filter(|&stores| stores > 0)?;
                }
                _ => return None,
            }
        }
        None
    }

    /// Another list that has blocks is deleted, or loses one of them.
    fn empty_another_list(&mut self, list: u8) -> Option<()> {
        let state = self.state(0)?;
        let mut others = state.lists().to_vec();
        others.retain(|&other| other != list && state.blocks_on(other).next().is_some());
        let other = self.random.pick_if_any(&others)?;
        if self.random.chance(60) {
            self.run(format_args!("dellist 0 {other}"));
        } else {
            let block = state.blocks_on(other).next()?;
            self.run(format_args!("delblock 0 {block}"));
        }
        Some(())
    }

    /// A block is put on `list` in `unit`, or one of its blocks is deleted, or another list is.
    fn change_of(&mut self, unit: u64, list: u8) {
        let Some(state) = self.state(unit) else { return };
        let blocks: Vec<u8> = state.blocks_on(list).collect();
        match (self.random.below(10), self.random.pick_if_any(&blocks)) {
            (0..=3, Some(block)) => self.run(format_args!("delblock {unit} {block}")).ignore(),
            (4, _) => self.delete_list(unit),
            (5, _) => self.new_list(unit),
            (_, predecessor) => {
                let predecessor = predecessor.unwrap_or(0);
                self.run(format_args!("newblock {unit} {list} {predecessor}"));
            }
        }
    }
}
