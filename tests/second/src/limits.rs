//! The sizes and ranges of document 01, "The card and the record"; document 02, E7, E10.

/// Bytes of a block, and of a slot that holds one.
pub const BLOCK_BYTES: usize = 256;
/// Slots at the start of a segment, numbered from 0.
pub const SLOTS: u8 = 14;
/// Bytes of a segment: its slots, then a summary of 512.
pub const SEGMENT_BYTES: usize = 4_096;
/// Most segments of a card.
pub const SEGMENTS: usize = 64;
/// Offset of the summary in its segment; the count byte is its first.
pub const SUMMARY_AT: usize = SLOTS as usize * BLOCK_BYTES;
/// Bytes of entries in a summary, behind the count byte.
pub const ENTRY_BYTES: usize = 511;

/// Blocks are numbered from 1 to this.
pub const BLOCKS: u8 = 64;
/// Lists are numbered from 1 to this.
pub const LISTS: u8 = 16;
/// Units are numbered from 1 to this.
pub const UNITS: u8 = 4;
/// Windows are numbered from 1 to this.
pub const WINDOWS: u8 = 16;
/// Races are numbered from 1 to this; 0 means none.
pub const RACES: u8 = 24;

/// Entries that a unit's journal takes, and most members of a commit.
pub const JOURNAL: usize = 15;
/// Entries that the queue takes, and places of the ring of queue data.
pub const QUEUE: usize = 32;
/// Bytes of queue data.
pub const QUEUE_BYTES: usize = QUEUE * BLOCK_BYTES;
/// Bytes of journal data.
pub const JOURNAL_BYTES: usize = UNITS as usize * JOURNAL * BLOCK_BYTES;

/// Largest allowance of a flush.
pub const ALLOWANCE: u64 = 65_535;
/// Most segments of a card that the lister reads.
pub const LISTER_SEGMENTS: usize = 16;
