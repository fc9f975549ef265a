#![doc = include_str!("../README.md")]
#![no_std]
#![deny(missing_docs)]
#![deny(unsafe_code)]

#[cfg(not(all(target_arch = "x86_64", target_pointer_width = "64", not(windows))))]
compile_error!("libnumgalis.a is compiled for x86-64 and its System V calling convention");

mod disk;
mod refusal;
mod stores;
#[allow(unsafe_code)]
mod sys;

pub use disk::{Disk, Ending, Flushed};
pub use refusal::Refusal;
pub use stores::{Store, Stores};

/// Bytes of the record, in which the disk keeps what is not on the card yet.
pub const RECORD: usize = 573;

/// Bytes of a segment: a card is 1 to [`SEGMENTS`] of them long.
pub const SEGMENT: usize = 4096;

/// Segments of the largest card.
pub const SEGMENTS: usize = 64;

/// Bytes of a block.
pub const BLOCK: usize = 256;

/// Bytes of the queue data: a block for each of the queue's 32 entries.
pub const QUEUE_DATA: usize = 32 * BLOCK;

/// Bytes of the journal data: a block for each of the 15 entries of a unit's journal, for each unit.
pub const JOURNAL_DATA: usize = UNITS * 15 * BLOCK;

/// Bytes that [`Disk::inventory`] is lent: one for each list.
pub const INVENTORY: usize = LISTS;

/// Bytes of the longest page: 21 lines of 40 characters and a line end.
pub const PAGE: usize = 21 * 41;

/// The most stores that a flush can make: a write's data, the four bytes of its entry and the count, 32 times.
pub const FLUSH_STORES: usize = 32 * (BLOCK + 4 + 1);

/// Blocks are numbered 1 to 64.
pub const BLOCKS: usize = 64;

/// Lists are numbered 1 to 16.
pub const LISTS: usize = 16;

/// Units are numbered 1 to 4. An open unit's stream and view have its number.
pub const UNITS: usize = 4;

/// Windows are numbered 1 to 16.
pub const WINDOWS: usize = 16;

/// Races are numbered 1 to 24; 0 is none.
pub const RACES: usize = 24;

/// The largest allowance of a flush.
pub const ALLOWANCE: usize = 65_535;

/// The stream of changes that belong to no unit.
pub const SIMPLE: usize = 0;

/// The view of the committed state: what is on the card, then what is queued.
pub const COMMITTED: usize = 0;

/// The view of the persistent state: what is on the card.
pub const PERSISTENT: usize = 5;
