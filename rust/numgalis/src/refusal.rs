//! Why a call was refused.

use core::error::Error;
use core::fmt;

/// The question of a call that was answered no, by its number and name in `docs/CALLS.md`.
///
/// A refused call has changed nothing, but for [`Conflict`](Refusal::Conflict), which closes its unit and counts.
///
/// ```
/// use numgalis::{Disk, Refusal, JOURNAL_DATA, QUEUE_DATA, SEGMENT};
///
/// let (mut card, mut queue, mut journals) = ([0; SEGMENT], [0; QUEUE_DATA], [0; JOURNAL_DATA]);
/// let mut disk = Disk::format(&mut card, &mut queue, &mut journals)?;
/// let refusal = disk.new_block(0, 3, 0).unwrap_err();
/// assert_eq!(refusal, Refusal::ListNotTaken);
/// assert_eq!(refusal.number(), 7);
/// assert_eq!(refusal.to_string(), "the list is not taken in this view");
/// # Ok::<(), Refusal>(())
/// ```
#[derive(Clone, Copy, Debug, PartialEq, Eq, Hash)]
pub enum Refusal {
    /// 1: the card, the queue data or the journal data have a wrong length.
    WrongLength,
    /// 2: the card's log has a fault. Only mounting answers it.
    LogFault {
        /// The segment of the first fault, from 0.
        segment: usize,
        /// The entry of the first fault in its segment, from 0.
        entry: usize,
    },
    /// 3: the record is not one that goes with this card.
    RecordUnsound,
    /// 4: the stream, view or unit is not open, or there is none of that number.
    StreamClosed,
    /// 5: a block, list, predecessor, window, race or allowance is out of range, or data or a destination has a wrong length.
    OutOfRange,
    /// 6: the unit is open already.
    UnitOpen,
    /// 7: the list is not taken in the view.
    ListNotTaken,
    /// 8: the block is on no list in the view.
    BlockNotPlaced,
    /// 9: the predecessor is not on that list.
    PredecessorElsewhere,
    /// 10: every number is in use.
    NoNumberFree,
    /// 11: the unit's journal has 15 entries.
    JournalFull,
    /// 12: an entry of the unit does not apply. The unit is closed, its changes are gone, and its window's count is higher.
    Conflict,
    /// 13: the queue has no room for what is added. A flush makes room.
    QueueFull,
    /// 14: the buffer is shorter than the page.
    BufferTooShort,
    /// 15: the block was not written since it was put.
    Unwritten,
}

impl Refusal {
    /// The number of the question, 1 to 15.
    ///
    /// ```
    /// # use numgalis::Refusal;
    /// assert_eq!(Refusal::LogFault { segment: 3, entry: 14 }.number(), 2);
    /// ```
    pub const fn number(self) -> usize {
        match self {
            Refusal::WrongLength => 1,
            Refusal::LogFault { .. } => 2,
            Refusal::RecordUnsound => 3,
            Refusal::StreamClosed => 4,
            Refusal::OutOfRange => 5,
            Refusal::UnitOpen => 6,
            Refusal::ListNotTaken => 7,
            Refusal::BlockNotPlaced => 8,
            Refusal::PredecessorElsewhere => 9,
            Refusal::NoNumberFree => 10,
            Refusal::JournalFull => 11,
            Refusal::Conflict => 12,
            Refusal::QueueFull => 13,
            Refusal::BufferTooShort => 14,
            Refusal::Unwritten => 15,
        }
    }
}

/// The results of a call, unless its answer is a refusal.
pub(crate) fn reply<T>(answer: usize, results: T) -> Result<T, Refusal> {
    mount_reply(answer, 0, 0).map(|()| results)
}

/// The same of mounting, whose refusal 2 has a segment and an entry.
pub(crate) fn mount_reply(answer: usize, segment: usize, entry: usize) -> Result<(), Refusal> {
    Err(match answer {
        0 => return Ok(()),
        1 => Refusal::WrongLength,
        2 => Refusal::LogFault { segment, entry },
        3 => Refusal::RecordUnsound,
        4 => Refusal::StreamClosed,
        5 => Refusal::OutOfRange,
        6 => Refusal::UnitOpen,
        7 => Refusal::ListNotTaken,
        8 => Refusal::BlockNotPlaced,
        9 => Refusal::PredecessorElsewhere,
        10 => Refusal::NoNumberFree,
        11 => Refusal::JournalFull,
        12 => Refusal::Conflict,
        13 => Refusal::QueueFull,
        14 => Refusal::BufferTooShort,
        15 => Refusal::Unwritten,
        _ => unreachable!("the archive has no refusal {answer}"),
    })
}

impl fmt::Display for Refusal {
    fn fmt(&self, f: &mut fmt::Formatter<'_>) -> fmt::Result {
        let sentence = match self {
            Refusal::WrongLength => "the card, the queue data or the journal data have a wrong length",
            Refusal::LogFault { segment, entry } => {
                return write!(f, "the card's log has a fault: segment {segment}, entry {entry}");
            }
            Refusal::RecordUnsound => "the record does not go with this card",
            Refusal::StreamClosed => "the stream, view or unit is not open, or there is none of that number",
            Refusal::OutOfRange => "a number is out of range, or data or a destination has a wrong length",
            Refusal::UnitOpen => "the unit is open already",
            Refusal::ListNotTaken => "the list is not taken in this view",
            Refusal::BlockNotPlaced => "the block is on no list in this view",
            Refusal::PredecessorElsewhere => "the predecessor is not on that list",
            Refusal::NoNumberFree => "every number is in use",
            Refusal::JournalFull => "the unit's journal is full",
            Refusal::Conflict => "a change of the unit does not apply any more: the unit is closed without its changes",
            Refusal::QueueFull => "the queue has no room for what is added",
            Refusal::BufferTooShort => "the buffer is shorter than the page",
            Refusal::Unwritten => "the block was not written since it was put on its list",
        };
        f.write_str(sentence)
    }
}

impl Error for Refusal {}
