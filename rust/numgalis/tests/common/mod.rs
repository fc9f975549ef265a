//! What a caller of the disk keeps, and calls on it.

// Not every test uses all of it.
#![allow(dead_code)]

use numgalis::{
    Disk, Refusal, ALLOWANCE, BLOCK, COMMITTED, INVENTORY, JOURNAL_DATA, PAGE, QUEUE_DATA, RECORD, SEGMENT, SIMPLE,
};

/// All that a disk is made of.
#[derive(Clone, PartialEq, Eq)]
pub struct Kept {
    pub card: Vec<u8>,
    pub queue: Vec<u8>,
    pub journals: Vec<u8>,
    pub record: [u8; RECORD],
}

impl Kept {
    /// Of the right lengths, with nothing in it that is of use.
    pub fn garbage(segments: usize) -> Kept {
        Kept {
            card: vec![165; segments * SEGMENT],
            queue: vec![166; QUEUE_DATA],
            journals: vec![167; JOURNAL_DATA],
            record: [168; RECORD],
        }
    }

    pub fn formatted(segments: usize) -> Kept {
        let mut kept = Kept::garbage(segments);
        kept.on(|disk| disk.reformat()).unwrap();
        kept
    }

    /// Calls on the disk, whose record is kept.
    pub fn on<T>(&mut self, calls: impl FnOnce(&mut Disk) -> T) -> T {
        let mut disk = Disk::with_record(&mut self.card, &mut self.queue, &mut self.journals, self.record);
        let result = calls(&mut disk);
        self.record = disk.into_record();
        result
    }

    /// The same, with the disk as it was before: a look at what would be.
    pub fn would<T>(&self, calls: impl FnOnce(&mut Disk) -> T) -> T {
        self.clone().on(calls)
    }

    /// The power is cut: card alone is left.
    pub fn cut(&mut self) {
        *self = Kept {
            card: self.card.clone(),
            ..Kept::garbage(0)
        };
    }

    /// Calls that must leave all as it was if they are refused.
    pub fn unchanged_if_refused<T>(
        &mut self,
        calls: impl FnOnce(&mut Disk) -> Result<T, Refusal>,
    ) -> Result<T, Refusal> {
        let before = self.clone();
        let result = self.on(calls);
        assert!(
            result.is_ok() || *self == before,
            "a refused call has changed something"
        );
        result
    }
}

/// A block's content, that begins with a text.
pub fn content(text: &str) -> [u8; BLOCK] {
    let mut bytes = [0; BLOCK];
    bytes[..text.len()].copy_from_slice(text.as_bytes());
    bytes
}

/// The content and the race of a block.
pub fn read(disk: &Disk, view: usize, block: usize) -> Result<([u8; BLOCK], usize), Refusal> {
    let mut bytes = [169; BLOCK];
    let race = disk.read(view, block, &mut bytes);
    assert!(
        race.is_ok() || bytes == [169; BLOCK],
        "a refused read has changed its destination"
    );
    race.map(|race| (bytes, race))
}

/// The blocks of a list, in order.
pub fn blocks(disk: &Disk, view: usize, list: usize) -> Result<Vec<usize>, Refusal> {
    let mut found = Vec::new();
    loop {
        match disk.next(view, list, found.last().copied().unwrap_or(0))? {
            0 => return Ok(found),
            block => found.push(block),
        }
    }
}

/// A call, with arguments.
pub type Call = fn(&mut Disk) -> Result<(), Refusal>;

/// Every call that looks at the record, the listing of stores apart.
pub const CALLS: [(&str, Call); 13] = [
    ("new_list", |disk| disk.new_list(SIMPLE).map(drop)),
    ("new_block", |disk| disk.new_block(SIMPLE, 1, 0).map(drop)),
    ("write", |disk| disk.write(SIMPLE, 1, 0, &[1; BLOCK])),
    ("delete_block", |disk| disk.delete_block(SIMPLE, 1)),
    ("delete_list", |disk| disk.delete_list(SIMPLE, 1)),
    ("begin", |disk| disk.begin(1, 1)),
    ("end", |disk| disk.end(1)),
    ("flush", |disk| disk.flush(ALLOWANCE).map(drop)),
    ("read", |disk| read(disk, COMMITTED, 1).map(drop)),
    ("next", |disk| disk.next(COMMITTED, 1, 0).map(drop)),
    ("inventory", |disk| {
        disk.inventory(COMMITTED, &mut [0; INVENTORY]).map(drop)
    }),
    ("page", |disk| disk.page(COMMITTED, &mut [0; PAGE]).map(drop)),
    ("conflicts", |disk| disk.conflicts(1).map(drop)),
];
