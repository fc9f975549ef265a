//! Stores and power cuts, mounting and formatting.

use super::Generator;
use crate::limits::{BLOCK_BYTES, SEGMENTS, SEGMENT_BYTES};
use crate::shell::CARD_BYTES;

impl Generator<'_> {
    /// A flush, or several small ones.
    pub(super) fn flush(&mut self) {
        let flushes = if self.random.chance(15) {
            self.random.between(2, 8)
        } else {
            1
        };
        for _ in 0..flushes {
            let allowance = self.allowance();
            self.run(format_args!("flush {allowance}"));
        }
        self.lend_without_the_head();
        if self.random.chance(10) {
            self.run(format_args!("show 5"));
            self.run(format_args!("sum"));
        }
    }

    /// A flush that the power leaves; most of the time the card is mounted then.
    pub(super) fn cut_flush(&mut self) {
        let allowance = if self.random.chance(70) {
            65_535
        } else {
            self.allowance()
        };
        let stores = match self.random.below(10) {
            0..=6 => self.allowance(),
            7..=8 => self.random.below(4 * BLOCK_BYTES as u64),
            _ => self.strange_number(),
        };
        self.run(format_args!("cut flush {allowance} {stores}"));
        self.after_cut();
    }

    /// A power cut between calls.
    pub(super) fn cut(&mut self) {
        self.run(format_args!("cut"));
        self.after_cut();
    }

    pub(super) fn after_cut(&mut self) {
        if self.random.chance(30) {
            self.run(format_args!("list"));
            self.run(format_args!("sum"));
        }
        if self.random.chance(80) {
            self.run(format_args!("mount"));
        }
        if self.random.chance(10) {
            self.conflicts();
        }
        if self.random.chance(50) {
            let view = self.random.pick(&[0, 5]);
            self.run(format_args!("show {view}"));
            self.run(format_args!("sum"));
        }
    }

    /// A formatting that the power leaves.
    pub(super) fn cut_format(&mut self) {
        let stores = match self.random.below(10) {
            0..=7 => self.random.below(self.segments() as u64 + 2),
            _ => self.strange_number(),
        };
        self.run(format_args!("cut format {stores}"));
        self.after_cut();
    }

    pub(super) fn mount(&mut self) {
        self.with_counts_after(|script| script.run(format_args!("mount")).ignore());
        if self.random.chance(30) {
            self.run(format_args!("show 0"));
            self.run(format_args!("sum"));
        }
    }

    /// A formatting; now and then of a card whose length is not right.
    pub(super) fn format(&mut self) {
        if self.random.chance(15) {
            let length = match self.random.below(6) {
                0 => 0,
                1 => CARD_BYTES,
                2 => SEGMENT_BYTES - 1,
                3 => self.random.between(1, SEGMENTS as u64) as usize * SEGMENT_BYTES + 1,
                4 => SEGMENTS * SEGMENT_BYTES,
                _ => self.random.below(CARD_BYTES as u64 + 1) as usize,
            };
            self.put_card(length);
            self.any_call();
            self.run(format_args!("mount"));
            if self.run(format_args!("format")).is_accepted() {
                return;
            }
            self.run(format_args!("list"));
            return self.new_card();
        }
        self.with_counts_after(|script| script.run(format_args!("format")).ignore());
    }
}
