//! Races: writes for a race and for none, one over the other, in units, over remounts and cuts.

use super::arguments::blocks_of;
use super::Generator;
use crate::limits::{BLOCK_BYTES, RACES};
use crate::random::Random;

/// Races that writes have more often than others.
const OFTEN: &[u64] = &[1, 2, 23, 24];

impl Generator<'_> {
    /// How much of its data a write lends, and its race, as the line names them: often no race, now and then one above 24.
    pub(super) fn part_and_race(&mut self) -> String {
        let part = self.part(BLOCK_BYTES as u64);
        let race = if self.is_wrong() {
            self.wrong_race()
        } else {
            match self.random.below(100) {
                0..=39 => return part,
                40..=46 => 0,
                47..=96 => self.right_race(),
                _ => self.wrong_race(),
            }
        };
        let part = if part.is_empty() {
            format!(" {BLOCK_BYTES}")
        } else {
            part
        };
        format!("{part} {race}")
    }

    /// A race from 1 to 24.
    fn right_race(&mut self) -> u64 {
        let any = self.random.between(1, u64::from(RACES));
        let often = self.random.pick(OFTEN);
        self.random.pick(&[any, any, often])
    }

    /// A race that there is not: beside those that there are, one of them with a higher bit set, or any strange number.
    fn wrong_race(&mut self) -> u64 {
        let bit = self.random.pick(&[5, 6, 7, 8, 16, 32, 63]);
        match self.random.below(8) {
            0..=2 => u64::from(RACES) + 1,
            3 => self.random.pick(&[26, 31, 32, 255]),
            4..=6 => self.right_race() + (1 << bit),
            _ => self.strange_number(),
        }
    }

    /// A write of `block` on `stream`, for a race or for none.
    pub(super) fn write_for_a_race(&mut self, stream: u64, block: u64) -> Option<u64> {
        let hex = self.hex();
        let race = self.right_race();
        match self.random.below(10) {
            0..=5 => self.run(format_args!("write {stream} {block} {hex} {BLOCK_BYTES} {race}")),
            6..=7 => self.run(format_args!("write {stream} {block} {hex}")),
            8 => self.run(format_args!("write {stream} {block} {hex} {BLOCK_BYTES} 0")),
            _ => {
                let wrong = self.wrong_race();
                self.run(format_args!("write {stream} {block} {hex} {BLOCK_BYTES} {wrong}"))
            }
        }
        .answer
    }

    /// A block is written for races, one after the other, on stream 0 and in units that end or don't; it is read in every
    /// view after each, and after flushes, cuts and mounts.
    pub(super) fn races(&mut self) {
        let Some(state) = self.state(0) else { return };
        let Some(block) = self.random.pick_if_any(&blocks_of(&state)).map(u64::from) else {
            return self.new_block(0);
        };
        let unit = self.opened_unit();
        for _ in 0..self.random.between(2, 5) {
            let stream = self.random.pick(&[0, unit, unit]);
            let answer = self.write_for_a_race(stream, block);
            self.make_room(answer);
            self.read_in_views(block);
            if self.random.chance(20) {
                self.flush();
            }
        }
        if self.random.chance(70) {
            let answer = self.run(format_args!("end {unit}")).answer;
            self.make_room(answer);
            self.read_in_views(block);
        }
        match self.random.below(12) {
            0..=2 => self.flush(),
            3..=5 => {
                self.run(format_args!("flush 65535"));
                self.mount();
            }
            6..=8 => self.cut_flush(),
            9 => self.put_block_again(block),
            10 => self.wrong_races_on_parts(block),
            _ => {}
        }
        self.read_in_views(block);
    }

    /// A block is deleted; blocks are put until its number is given again, where few are free. Its race went with it.
    fn put_block_again(&mut self, block: u64) {
        self.leave_few_blocks();
        self.run(format_args!("delblock 0 {block}"));
        self.run(format_args!("flush 65535"));
        if self.random.chance(50) {
            self.run(format_args!("mount"));
        }
        self.until_given(block);
        self.read_in_views(block);
        self.run(format_args!("write 0 {block} 07"));
    }

    /// Races above 24, while question 1 is answered no.
    fn wrong_races_on_parts(&mut self, block: u64) {
        let buffer = self.random.pick(&["card", "queue", "journal"]);
        self.run(format_args!("lend {buffer} 1"));
        let race = self.wrong_race();
        self.run(format_args!("write 0 {block} 07 256 {race}"));
        self.run(format_args!("lend all"));
    }
}

/// The race of a write that is stored byte by byte: none about as often as one.
pub(super) fn any_race(random: &mut Random) -> u8 {
    let any = random.between(1, u64::from(RACES)) as u8;
    let often = random.pick(OFTEN) as u8;
    random.pick(&[0, 0, any, often])
}
