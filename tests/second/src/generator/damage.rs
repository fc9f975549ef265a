//! What a script does that a careful caller would not: someone else writes on the card, parts are lent, lines are no
//! commands.

use super::Generator;
use crate::entry::Entry;
use crate::limits::{BLOCK_BYTES, JOURNAL_BYTES, QUEUE_BYTES, SEGMENT_BYTES, SLOTS};
use crate::log::{count_at, entries_at, entry_bytes, slot_at, stores_of, Log, Stores};
use crate::shell::LINE_BYTES;

/// Maps that are legal, and their nearest neighbours that are not.
const MAPS: &[u8] = &[
    0, 1, 2, 3, 7, 9, 11, 15, 16, 17, 33, 34, 35, 37, 41, 48, 64, 65, 66, 67, 71, 72, 73, 75, 80, 97, 98, 105, 130,
    131, 135, 137, 144, 161, 162, 163, 194, 195, 199, 201, 208, 225, 226, 255,
];
/// Values at the borders of fields.
const FIELD_VALUES: &[u8] = &[0, 1, 2, 3, 4, 13, 14, 15, 16, 17, 24, 25, 63, 64, 65, 128, 255];

impl Generator<'_> {
    // ---- Someone else writes -----------------------------------------------------------------------------------

    /// Bytes of the card are written, calls are made, and most of the time the bytes are put back.
    pub(super) fn damage(&mut self) {
        for _ in 0..self.random.pick(&[1, 1, 1, 2, 3]) {
            let (at, byte) = self.damaged_byte();
            self.poke(at, byte);
        }
        for _ in 0..self.random.below(4) {
            self.any_call();
        }
        match self.random.below(10) {
            0..=4 => self.repair(),
            5..=6 => self.mount(),
            7 => self.run(format_args!("list")).ignore(),
            _ => {}
        }
    }

    pub(super) fn poke(&mut self, at: usize, byte: u8) {
        if let Some(&before) = self.shell.card().get(at) {
            self.damage.push((at, before));
        }
        self.run(format_args!("poke {at} {byte}"));
    }

    /// The bytes that were written over are put back, the last first.
    pub(super) fn repair(&mut self) {
        while let Some((at, byte)) = self.damage.pop() {
            self.run(format_args!("poke {at} {byte}"));
        }
    }

    /// Repairs now and then, and says whether it did.
    pub(super) fn repairs(&mut self) -> bool {
        let repairs = !self.damage.is_empty() && self.random.chance(60);
        if repairs {
            self.repair();
        }
        repairs
    }

    /// Where someone else writes, and what: count bytes, maps, fields, data, the head's stores, anywhere.
    fn damaged_byte(&mut self) -> (usize, u8) {
        let length = self.shell.card().len();
        let segments = length / SEGMENT_BYTES;
        let byte = self.random.byte();
        let kind = self.random.below(20);
        if segments == 0 || kind == 0 {
            return (self.random.below(length as u64 + 3) as usize, byte);
        }
        let segment = self.damaged_segment(segments);
        match kind {
            1..=5 => {
                let count = self.shell.card()[count_at(segment)];
                let counts = [0, 1, count.wrapping_add(1), count.wrapping_sub(1), 255, byte];
                (count_at(segment), self.random.pick(&counts))
            }
            6..=15 => match self.entry_in(segment) {
                None => (entries_at(segment), self.random.pick(MAPS)),
                Some((at, length)) => self.damaged_entry_byte(entries_at(segment) + at, length),
            },
            16..=17 => self.damaged_store(byte),
            _ => {
                let slot = self.random.below(u64::from(SLOTS)) as u8;
                let offset = self.random.below(BLOCK_BYTES as u64) as usize;
                (slot_at(segment, slot) + offset, byte)
            }
        }
    }

    /// A segment in use, or the one after.
    fn damaged_segment(&mut self, segments: usize) -> usize {
        let card = self.shell.card();
        let used = (0..segments)
            .take_while(|&segment| card[count_at(segment)] != 0)
            .count();
        let bound = segments.min(used + 1);
        if self.random.chance(10) {
            self.random.below(segments as u64) as usize
        } else {
            self.random.below(bound as u64) as usize
        }
    }

    /// An entry of a segment: where it begins and its length.
    fn entry_in(&mut self, segment: usize) -> Option<(usize, usize)> {
        let card = self.shell.card();
        let bytes = entry_bytes(card, segment);
        let mut entries = Vec::new();
        let mut at = 0;
        for _ in 0..card[count_at(segment)] {
            let Ok(decoded) = Entry::decode(&bytes[at..]) else {
                break;
            };
            entries.push((at, decoded.length));
            at += decoded.length;
        }
        self.random.pick_if_any(&entries)
    }

    /// The map or a field of the entry at `at`.
    fn damaged_entry_byte(&mut self, at: usize, length: usize) -> (usize, u8) {
        let map = self.shell.card()[at];
        match self.random.below(10) {
            0 => (at, map ^ 128),
            1 => (at, map ^ 64),
            2 => (at, map ^ 1 << self.random.below(8)),
            3 => (at, self.random.pick(MAPS)),
            _ => {
                let field = at + self.random.between(1, length as u64 - 1) as usize;
                let value = self.shell.card()[field];
                let values = [value.wrapping_add(1), value.wrapping_sub(1)];
                let byte = if self.random.chance(50) {
                    self.random.pick(&values)
                } else {
                    self.random.pick(FIELD_VALUES)
                };
                (field, byte)
            }
        }
    }

    /// One of the head's stores: done already, or the next.
    fn damaged_store(&mut self, byte: u8) -> (usize, u8) {
        let lent = self.shell.lent();
        let segments = lent.card.len() / SEGMENT_BYTES;
        let place = lent.record.head().and_then(|head| {
            let log = Log::read(lent.card).ok()?;
            Some((head, log.end.place(head, segments)?))
        });
        let Some((head, place)) = place else {
            return (0, byte);
        };
        let number = lent.record.done() + 1;
        let number = self.random.below(number.min(stores_of(head)) as u64) as usize;
        (Stores::new(head, place, &[0; BLOCK_BYTES]).nth(number).at, byte)
    }

    // ---- Parts -------------------------------------------------------------------------------------------------

    /// A part of the card or of a buffer is lent for a while.
    pub(super) fn lend(&mut self) {
        match self.random.below(10) {
            0 => self.hold_on_a_part(),
            1..=5 => {
                let segments = self.shell.card().len() / SEGMENT_BYTES;
                let length = self.random.below(segments as u64 + 1) as usize * SEGMENT_BYTES;
                self.run(format_args!("lend card {length}"));
                self.use_part();
            }
            6 => {
                let length = self.random.below(self.shell.card().len() as u64 + 2);
                self.run(format_args!("lend card {length}"));
            }
            7 => {
                let length = self.part_of_buffer(QUEUE_BYTES as u64);
                self.run(format_args!("lend queue {length}"));
            }
            8 => {
                let length = self.part_of_buffer(JOURNAL_BYTES as u64);
                self.run(format_args!("lend journal {length}"));
            }
            _ => {
                let buffer = self.random.pick(&["card", "queue", "journal"]);
                let length = self.strange_number();
                self.run(format_args!("lend {buffer} {length}"));
            }
        }
        for _ in 0..self.random.below(3) {
            if self.random.chance(30) {
                self.wrong_call();
            } else {
                self.any_call();
            }
        }
        if self.random.chance(10) {
            self.run(format_args!("mount"));
        }
        if self.random.chance(85) {
            self.run(format_args!("lend all"));
        }
    }

    /// A unit holds a block, or a list, that is free on a part of the card, and on the whole card perhaps is not.
    fn hold_on_a_part(&mut self) {
        let segments = self.segments() as u64;
        let length = self.random.between(1, segments.max(2) - 1) as usize * SEGMENT_BYTES;
        self.run(format_args!("lend card {length}"));
        if self.run(format_args!("mount")).is_accepted() {
            self.begin_unit(1);
            if self.random.chance(50) {
                self.new_block(1);
            } else {
                self.new_list(1);
            }
        }
        self.run(format_args!("lend all"));
    }

    /// Where the head is begun in a segment that it opens, a card without that segment is lent: the head has no place.
    pub(super) fn lend_without_the_head(&mut self) {
        let record = *self.shell.record();
        let Some(head) = record.head().filter(|_| record.done() > 0) else {
            return;
        };
        let Ok(log) = Log::read(self.shell.lent().card) else {
            return;
        };
        let segments = log.end.segment + 1;
        if log.end.place(head, segments).is_none() && self.random.chance(50) {
            self.run(format_args!("lend card {}", segments * SEGMENT_BYTES));
            self.any_call();
            self.run(format_args!("lend all"));
        }
    }

    /// Calls on a card of which a part is lent; it may be sound by itself.
    fn use_part(&mut self) {
        for _ in 0..self.random.below(10) {
            if self.shell.versions().is_none() {
                break;
            }
            match self.random.below(20) {
                0..=7 => self.change(),
                8..=9 => self.end(),
                10..=14 => self.flush(),
                15 => self.mount(),
                16 => self.cut_format(),
                17 => self.cut_flush(),
                18 => self.run(format_args!("format")).ignore(),
                _ => self.look_up(),
            }
        }
    }

    fn part_of_buffer(&mut self, whole: u64) -> u64 {
        match self.random.below(5) {
            0 => 0,
            1 => whole,
            2 => whole + 1,
            3 => self.random.below(whole),
            _ => whole - 1,
        }
    }

    // ---- Lines that are no commands ----------------------------------------------------------------------------

    /// A line that is no command, or only just one.
    pub(super) fn nonsense(&mut self) {
        let number = self.strange_number();
        match self.random.below(34) {
            0 => self.run(format_args!("")),
            1 => self.run(format_args!("   ")),
            2 => self.run(format_args!("# newlist 0")),
            3 => self.run(format_args!(" # newlist 0")),
            4 => self.run(format_args!("newlist")),
            5 => self.run(format_args!("newlist 0 0")),
            6 => self.run(format_args!("  conflicts   ")),
            7 => self.run(format_args!("newblock   0  1   0")),
            8 => self.run(format_args!("newlist {number}")),
            9 => self.run(format_args!("flush {number}")),
            10 => self.run(format_args!("begin 0000000000000000000000000000000{number}")),
            11 => self.run(format_args!("flush 18446744073709551616")),
            12 => self.run(format_args!("begin +1")),
            13 => self.run(format_args!("inventory -1")),
            14 => self.run(format_args!("read 0 1 {number}")),
            15 => self.run(format_args!("NEWLIST 0")),
            16 => self.run(format_args!("newlist\t0")),
            17 => self.run(format_args!("conflicts\r")),
            18 => self.data_that_is_none(),
            19 => self.long_line(),
            20 => self.run_bytes(b"write 0 1 \xff\x00\x80"),
            21 => self.run(format_args!("poke {number} 256")),
            22 => self.run(format_args!("card 266241 0")),
            23 => self.run(format_args!("page 0 {number}")),
            24 => self.run(format_args!("page 0 1001")),
            25 => self.run(format_args!("begin 1 {number}")),
            26 => self.run(format_args!("conflicts {number}")),
            27 => self.run(format_args!("begin 1 1 1")),
            28 => self.run(format_args!("write 0 1 07 256 {number}")),
            29 => self.run(format_args!("write 0 1 07 {number} 1")),
            30 => self.run(format_args!("write 0 1 07 256 1 1")),
            31 => self.run(format_args!("write 0 1 07 256 race 1")),
            32 => self.run(format_args!("read 0 1 256 1")),
            _ => self.words(),
        }
        .ignore();
    }

    /// HEX of an odd length, too long, or with a letter that is no digit.
    fn data_that_is_none(&mut self) -> super::Outcome {
        match self.random.below(4) {
            0 => self.run(format_args!("write 0 1 123")),
            1 => self.run(format_args!("write 0 1 {}", "00".repeat(257))),
            2 => self.run(format_args!("write 0 1 0x")),
            _ => self.run(format_args!("write 0 1 --")),
        }
    }

    /// A command at the longest length, or one byte above it, or far above it.
    fn long_line(&mut self) -> super::Outcome {
        let length = self.random.pick(&[LINE_BYTES, LINE_BYTES + 1, 5_000]);
        self.run(format_args!("{:length$}", "newlist 0"))
    }

    /// Words of commands, put together anyhow.
    fn words(&mut self) -> super::Outcome {
        const WORDS: &[&str] = &[
            "format",
            "mount",
            "begin",
            "end",
            "newlist",
            "newblock",
            "write",
            "read",
            "delblock",
            "dellist",
            "flush",
            "next",
            "conflicts",
            "inventory",
            "cut",
            "poke",
            "lend",
            "sum",
            "list",
            "show",
            "page",
            "all",
            "card",
            "queue",
            "journal",
            "0",
            "1",
            "2",
            "5",
            "16",
            "24",
            "256",
            "-",
            "07",
            "820",
            "4096",
            "x",
        ];
        let count = self.random.between(1, 7);
        let words: Vec<_> = (0..count).map(|_| self.random.pick(WORDS)).collect();
        self.run(format_args!("{}", words.join(" ")))
    }
}
