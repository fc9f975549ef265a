//! The disk: what is lent to every call, and the calls.

use crate::refusal::{mount_reply, reply};
use crate::sys::Lent;
use crate::{Refusal, Stores, RECORD};
use core::cell::Cell;
use core::fmt;
use core::marker::PhantomData;
use core::str;

/// A logical disk on a card: numbered lists of numbered blocks of 256 bytes.
///
/// It borrows the card and the data buffers and owns the record, so nobody else can change them between two calls. It
/// allocates nothing. Each method is the call of its name in `docs/CALLS.md`.
///
/// A change comes on a *stream*: [`SIMPLE`](crate::SIMPLE), or the number of an open unit. A look-up is made in a *view*:
/// [`COMMITTED`](crate::COMMITTED), [`PERSISTENT`](crate::PERSISTENT), or the number of an open unit.
///
/// # Refusals
///
/// A method that is refused has changed nothing, but for [`Refusal::Conflict`]. Below each method stand the refusals that it
/// can have. Two are not repeated there: [`WrongLength`](Refusal::WrongLength) and
/// [`RecordUnsound`](Refusal::RecordUnsound), which a disk from [`format`](Disk::format) or [`mount`](Disk::mount) never
/// has, and one from [`with_record`](Disk::with_record) only where buffers and record do not go together.
///
/// # Threads
///
/// A disk can go from one thread to another, but calls come one at a time: share it in a `Mutex`.
///
/// ```compile_fail,E0277
/// fn shared<T: Sync>() {}
/// shared::<numgalis::Disk>();
/// ```
///
/// # Examples
///
/// ```
/// use numgalis::{Disk, Ending, Refusal, ALLOWANCE, BLOCK, COMMITTED, JOURNAL_DATA, PERSISTENT, QUEUE_DATA, SEGMENT, SIMPLE};
///
/// let (mut card, mut queue, mut journals) = ([0; SEGMENT], [0; QUEUE_DATA], [0; JOURNAL_DATA]);
/// let mut disk = Disk::format(&mut card, &mut queue, &mut journals)?;
/// let list = disk.new_list(SIMPLE)?;
/// let block = disk.new_block(SIMPLE, list, 0)?;
/// disk.write(SIMPLE, block, 0, &[7; BLOCK])?;
///
/// // Queued, so committed, but not on the card yet.
/// let mut content = [0; BLOCK];
/// disk.read(COMMITTED, block, &mut content)?;
/// assert_eq!(content, [7; BLOCK]);
/// assert_eq!(disk.read(PERSISTENT, block, &mut content), Err(Refusal::BlockNotPlaced));
///
/// assert_eq!(disk.flush(ALLOWANCE)?.ending, Ending::Drained);
/// disk.read(PERSISTENT, block, &mut content)?;
/// # Ok::<(), Refusal>(())
/// ```
///
/// What a disk has borrowed stays borrowed:
///
/// ```compile_fail,E0506
/// # use numgalis::{Disk, JOURNAL_DATA, QUEUE_DATA, SEGMENT};
/// # let (mut card, mut queue, mut journals) = ([0; SEGMENT], [0; QUEUE_DATA], [0; JOURNAL_DATA]);
/// let mut disk = Disk::format(&mut card, &mut queue, &mut journals).unwrap();
/// card[3584] = 1;
/// disk.new_list(0);
/// ```
pub struct Disk<'a> {
    lent: Lent<'a>,
    /// The archive wants calls on a disk one at a time, look-ups too: no `Sync`.
    one_at_a_time: PhantomData<Cell<()>>,
}

impl<'a> Disk<'a> {
    /// Makes the card an empty log, whatever it held, and begins on it.
    ///
    /// Of the card one byte of each segment is stored, its count. The data buffers may hold anything.
    ///
    /// # Errors
    ///
    /// [`WrongLength`](Refusal::WrongLength): `card` is not 1 to [`SEGMENTS`](crate::SEGMENTS) times
    /// [`SEGMENT`](crate::SEGMENT) bytes long, `queue` not [`QUEUE_DATA`](crate::QUEUE_DATA), or `journals` not
    /// [`JOURNAL_DATA`](crate::JOURNAL_DATA).
    ///
    /// ```
    /// use numgalis::{Disk, Refusal, JOURNAL_DATA, QUEUE_DATA, SEGMENT};
    ///
    /// let (mut card, mut queue, mut journals) = ([255; SEGMENT], [255; QUEUE_DATA], [255; JOURNAL_DATA]);
    /// Disk::format(&mut card, &mut queue, &mut journals)?;
    /// assert_eq!(card[3584], 0);
    ///
    /// let short = Disk::format(&mut card[1..], &mut queue, &mut journals);
    /// assert_eq!(short.unwrap_err(), Refusal::WrongLength);
    /// # Ok::<(), Refusal>(())
    /// ```
    pub fn format(card: &'a mut [u8], queue: &'a mut [u8], journals: &'a mut [u8]) -> Result<Self, Refusal> {
        let mut disk = Disk::with_record(card, queue, journals, [0; RECORD]);
        disk.reformat()?;
        Ok(disk)
    }

    /// Walks the card's log and begins on it: after a power cut, or when a card is put in.
    ///
    /// Every view then shows the longest part of the history, from its beginning, that is on the card. The data buffers may
    /// hold anything.
    ///
    /// # Errors
    ///
    /// - [`WrongLength`](Refusal::WrongLength): as [`format`](Disk::format).
    /// - [`LogFault`](Refusal::LogFault): the log has a fault, with segment and entry of the first one.
    ///
    /// ```
    /// use numgalis::{Disk, Refusal, JOURNAL_DATA, QUEUE_DATA, SEGMENT};
    ///
    /// let (mut card, mut queue, mut journals) = ([0; 2 * SEGMENT], [0; QUEUE_DATA], [0; JOURNAL_DATA]);
    /// Disk::mount(&mut card, &mut queue, &mut journals)?;
    ///
    /// // The count of the second segment: one entry, of which there is none.
    /// card[SEGMENT + 3584] = 1;
    /// let faulty = Disk::mount(&mut card, &mut queue, &mut journals);
    /// assert_eq!(faulty.unwrap_err(), Refusal::LogFault { segment: 1, entry: 0 });
    /// # Ok::<(), Refusal>(())
    /// ```
    pub fn mount(card: &'a mut [u8], queue: &'a mut [u8], journals: &'a mut [u8]) -> Result<Self, Refusal> {
        let mut disk = Disk::with_record(card, queue, journals, [0; RECORD]);
        disk.remount()?;
        Ok(disk)
    }

    /// Goes on with a record that was kept, with the card and the data buffers as they were left.
    ///
    /// Nothing is asked here: any bytes mean some record, and each call is refused
    /// [`RecordUnsound`](Refusal::RecordUnsound) if it does not go with the card, or [`WrongLength`](Refusal::WrongLength)
    /// if lengths are wrong. But a record that is sound on another card, or goes with other data, is believed.
    ///
    /// ```
    /// use numgalis::{Disk, Refusal, COMMITTED, JOURNAL_DATA, QUEUE_DATA, RECORD, SEGMENT};
    ///
    /// let (mut card, mut queue, mut journals) = ([0; SEGMENT], [0; QUEUE_DATA], [0; JOURNAL_DATA]);
    /// let mut disk = Disk::format(&mut card, &mut queue, &mut journals)?;
    /// let list = disk.new_list(0)?;
    /// let record = disk.into_record();
    ///
    /// let disk = Disk::with_record(&mut card, &mut queue, &mut journals, record);
    /// assert_eq!(disk.next(COMMITTED, list, 0), Ok(0));
    ///
    /// let disk = Disk::with_record(&mut card, &mut queue, &mut journals, [255; RECORD]);
    /// assert_eq!(disk.next(COMMITTED, list, 0), Err(Refusal::RecordUnsound));
    /// # Ok::<(), Refusal>(())
    /// ```
    pub fn with_record(
        card: &'a mut [u8],
        queue: &'a mut [u8],
        journals: &'a mut [u8],
        record: [u8; RECORD],
    ) -> Disk<'a> {
        Disk {
            lent: Lent {
                card,
                queue,
                journals,
                record,
            },
            one_at_a_time: PhantomData,
        }
    }

    /// The record as it is now.
    ///
    /// ```
    /// # use numgalis::{Disk, Refusal, JOURNAL_DATA, QUEUE_DATA, SEGMENT};
    /// # let (mut card, mut queue, mut journals) = ([0; SEGMENT], [0; QUEUE_DATA], [0; JOURNAL_DATA]);
    /// let mut disk = Disk::format(&mut card, &mut queue, &mut journals)?;
    /// let before = *disk.record();
    /// disk.begin(1, 1)?;
    /// assert_ne!(*disk.record(), before);
    /// # Ok::<(), Refusal>(())
    /// ```
    pub fn record(&self) -> &[u8; RECORD] {
        &self.lent.record
    }

    /// Gives up the borrows and keeps the record, for [`with_record`](Disk::with_record).
    pub fn into_record(self) -> [u8; RECORD] {
        self.lent.record
    }

    /// The card as it is now.
    ///
    /// ```
    /// # use numgalis::{Disk, Refusal, ALLOWANCE, JOURNAL_DATA, QUEUE_DATA, SEGMENT};
    /// # let (mut card, mut queue, mut journals) = ([0; SEGMENT], [0; QUEUE_DATA], [0; JOURNAL_DATA]);
    /// let mut disk = Disk::format(&mut card, &mut queue, &mut journals)?;
    /// disk.new_list(0)?;
    /// disk.flush(ALLOWANCE)?;
    /// // One entry: take list 1.
    /// assert_eq!(disk.card()[3584..3587], [1, 2, 1]);
    /// # Ok::<(), Refusal>(())
    /// ```
    pub fn card(&self) -> &[u8] {
        self.lent.card
    }

    /// Makes the card an empty log once more: [`format`](Disk::format) on what is borrowed already.
    ///
    /// # Errors
    ///
    /// [`WrongLength`](Refusal::WrongLength).
    ///
    /// ```
    /// # use numgalis::{Disk, Refusal, JOURNAL_DATA, QUEUE_DATA, SEGMENT};
    /// # let (mut card, mut queue, mut journals) = ([0; SEGMENT], [0; QUEUE_DATA], [0; JOURNAL_DATA]);
    /// let mut disk = Disk::format(&mut card, &mut queue, &mut journals)?;
    /// disk.new_list(0)?;
    /// disk.reformat()?;
    /// assert_eq!(disk.new_list(0), Ok(1));
    /// # Ok::<(), Refusal>(())
    /// ```
    pub fn reformat(&mut self) -> Result<(), Refusal> {
        reply(self.lent.format(), ())
    }

    /// Walks the card's log once more: [`mount`](Disk::mount) on what is borrowed already. What is queued, and the units, are
    /// gone, as after a power cut.
    ///
    /// # Errors
    ///
    /// [`WrongLength`](Refusal::WrongLength), [`LogFault`](Refusal::LogFault).
    ///
    /// ```
    /// # use numgalis::{Disk, Refusal, JOURNAL_DATA, QUEUE_DATA, RECORD, SEGMENT};
    /// // Mounts a card, or formats it if it cannot be mounted.
    /// fn begin_anyhow<'a>(
    ///     card: &'a mut [u8],
    ///     queue: &'a mut [u8],
    ///     journals: &'a mut [u8],
    /// ) -> Result<Disk<'a>, Refusal> {
    ///     let mut disk = Disk::with_record(card, queue, journals, [0; RECORD]);
    ///     disk.remount().or_else(|_| disk.reformat())?;
    ///     Ok(disk)
    /// }
    ///
    /// let (mut card, mut queue, mut journals) = ([255; SEGMENT], [0; QUEUE_DATA], [0; JOURNAL_DATA]);
    /// let mut disk = begin_anyhow(&mut card, &mut queue, &mut journals)?;
    /// assert_eq!(disk.new_list(0), Ok(1));
    /// # Ok::<(), Refusal>(())
    /// ```
    pub fn remount(&mut self) -> Result<(), Refusal> {
        let (answer, segment, entry) = self.lent.mount();
        mount_reply(answer, segment, entry)
    }

    /// Takes a list and returns its number: the one that has been free longest. In a unit only the unit's view has it until
    /// the unit's [`end`](Disk::end).
    ///
    /// # Errors
    ///
    /// - [`StreamClosed`](Refusal::StreamClosed): the stream is not 0 and no open unit's.
    /// - [`NoNumberFree`](Refusal::NoNumberFree): all lists are taken, or held by units.
    /// - [`JournalFull`](Refusal::JournalFull): in a unit.
    /// - [`QueueFull`](Refusal::QueueFull): on stream 0.
    ///
    /// ```
    /// # use numgalis::{Disk, Refusal, JOURNAL_DATA, QUEUE_DATA, SEGMENT};
    /// # let (mut card, mut queue, mut journals) = ([0; SEGMENT], [0; QUEUE_DATA], [0; JOURNAL_DATA]);
    /// let mut disk = Disk::format(&mut card, &mut queue, &mut journals)?;
    /// assert_eq!(disk.new_list(0), Ok(1));
    /// assert_eq!(disk.new_list(0), Ok(2));
    /// # Ok::<(), Refusal>(())
    /// ```
    pub fn new_list(&mut self, stream: usize) -> Result<usize, Refusal> {
        let (answer, list) = self.lent.new_list(stream);
        reply(answer, list)
    }

    /// Puts a block on `list`, behind the block `predecessor` or, if that is 0, first, and returns its number: the one that
    /// has been free longest. Until it is written a read of it is refused.
    ///
    /// # Errors
    ///
    /// - [`StreamClosed`](Refusal::StreamClosed): the stream is not 0 and no open unit's.
    /// - [`OutOfRange`](Refusal::OutOfRange): `list` is not 1 to 16, or `predecessor` above 64.
    /// - [`ListNotTaken`](Refusal::ListNotTaken).
    /// - [`PredecessorElsewhere`](Refusal::PredecessorElsewhere): it is not 0 and not on the list.
    /// - [`NoNumberFree`](Refusal::NoNumberFree): all blocks are on lists, or held by units.
    /// - [`JournalFull`](Refusal::JournalFull): in a unit.
    /// - [`QueueFull`](Refusal::QueueFull): on stream 0.
    ///
    /// ```
    /// # use numgalis::{Disk, Refusal, COMMITTED, JOURNAL_DATA, QUEUE_DATA, SEGMENT};
    /// # let (mut card, mut queue, mut journals) = ([0; SEGMENT], [0; QUEUE_DATA], [0; JOURNAL_DATA]);
    /// let mut disk = Disk::format(&mut card, &mut queue, &mut journals)?;
    /// let list = disk.new_list(0)?;
    /// let last = disk.new_block(0, list, 0)?;
    /// let first = disk.new_block(0, list, 0)?;
    /// let middle = disk.new_block(0, list, first)?;
    /// assert_eq!(disk.next(COMMITTED, list, first), Ok(middle));
    /// assert_eq!(disk.next(COMMITTED, list, middle), Ok(last));
    /// # Ok::<(), Refusal>(())
    /// ```
    pub fn new_block(&mut self, stream: usize, list: usize, predecessor: usize) -> Result<usize, Refusal> {
        let (answer, block) = self.lent.new_block(stream, list, predecessor);
        reply(answer, block)
    }

    /// Gives `block` the 256 bytes `content`, for `race` 1 to 24, or for none, 0. Zeros count as written, too.
    ///
    /// # Errors
    ///
    /// - [`StreamClosed`](Refusal::StreamClosed): the stream is not 0 and no open unit's.
    /// - [`OutOfRange`](Refusal::OutOfRange): `block` is not 1 to 64, `race` above 24, or `content` not
    ///   [`BLOCK`](crate::BLOCK) bytes long.
    /// - [`BlockNotPlaced`](Refusal::BlockNotPlaced).
    /// - [`JournalFull`](Refusal::JournalFull): in a unit.
    /// - [`QueueFull`](Refusal::QueueFull): on stream 0.
    ///
    /// ```
    /// # use numgalis::{Disk, Refusal, BLOCK, JOURNAL_DATA, QUEUE_DATA, SEGMENT};
    /// # let (mut card, mut queue, mut journals) = ([0; SEGMENT], [0; QUEUE_DATA], [0; JOURNAL_DATA]);
    /// let mut disk = Disk::format(&mut card, &mut queue, &mut journals)?;
    /// let list = disk.new_list(0)?;
    /// let block = disk.new_block(0, list, 0)?;
    /// disk.write(0, block, 24, &[0; BLOCK])?;
    /// assert_eq!(disk.write(0, block, 25, &[0; BLOCK]), Err(Refusal::OutOfRange));
    /// assert_eq!(disk.write(0, block, 24, b"short"), Err(Refusal::OutOfRange));
    /// # Ok::<(), Refusal>(())
    /// ```
    pub fn write(&mut self, stream: usize, block: usize, race: usize, content: &[u8]) -> Result<(), Refusal> {
        reply(self.lent.write(stream, block, race, content), ())
    }

    /// Takes `block` off its list.
    ///
    /// # Errors
    ///
    /// - [`StreamClosed`](Refusal::StreamClosed): the stream is not 0 and no open unit's.
    /// - [`OutOfRange`](Refusal::OutOfRange): `block` is not 1 to 64.
    /// - [`BlockNotPlaced`](Refusal::BlockNotPlaced).
    /// - [`JournalFull`](Refusal::JournalFull): in a unit.
    /// - [`QueueFull`](Refusal::QueueFull): on stream 0.
    ///
    /// ```
    /// # use numgalis::{Disk, Refusal, JOURNAL_DATA, QUEUE_DATA, SEGMENT};
    /// # let (mut card, mut queue, mut journals) = ([0; SEGMENT], [0; QUEUE_DATA], [0; JOURNAL_DATA]);
    /// let mut disk = Disk::format(&mut card, &mut queue, &mut journals)?;
    /// let list = disk.new_list(0)?;
    /// let block = disk.new_block(0, list, 0)?;
    /// disk.delete_block(0, block)?;
    /// assert_eq!(disk.delete_block(0, block), Err(Refusal::BlockNotPlaced));
    /// # Ok::<(), Refusal>(())
    /// ```
    pub fn delete_block(&mut self, stream: usize, block: usize) -> Result<(), Refusal> {
        reply(self.lent.delete_block(stream, block), ())
    }

    /// Gives up `list`, and its blocks with it.
    ///
    /// # Errors
    ///
    /// - [`StreamClosed`](Refusal::StreamClosed): the stream is not 0 and no open unit's.
    /// - [`OutOfRange`](Refusal::OutOfRange): `list` is not 1 to 16.
    /// - [`ListNotTaken`](Refusal::ListNotTaken).
    /// - [`JournalFull`](Refusal::JournalFull): in a unit.
    /// - [`QueueFull`](Refusal::QueueFull): on stream 0.
    ///
    /// ```
    /// # use numgalis::{Disk, Refusal, JOURNAL_DATA, QUEUE_DATA, SEGMENT};
    /// # let (mut card, mut queue, mut journals) = ([0; SEGMENT], [0; QUEUE_DATA], [0; JOURNAL_DATA]);
    /// let mut disk = Disk::format(&mut card, &mut queue, &mut journals)?;
    /// let list = disk.new_list(0)?;
    /// let block = disk.new_block(0, list, 0)?;
    /// disk.delete_list(0, list)?;
    /// assert_eq!(disk.delete_block(0, block), Err(Refusal::BlockNotPlaced));
    /// # Ok::<(), Refusal>(())
    /// ```
    pub fn delete_list(&mut self, stream: usize, list: usize) -> Result<(), Refusal> {
        reply(self.lent.delete_list(stream, list), ())
    }

    /// Opens `unit` for `window`, which is charged if the unit's end is a conflict.
    ///
    /// # Errors
    ///
    /// - [`StreamClosed`](Refusal::StreamClosed): `unit` is not 1 to 4.
    /// - [`OutOfRange`](Refusal::OutOfRange): `window` is not 1 to 16.
    /// - [`UnitOpen`](Refusal::UnitOpen).
    ///
    /// ```
    /// # use numgalis::{Disk, Refusal, JOURNAL_DATA, QUEUE_DATA, SEGMENT};
    /// # let (mut card, mut queue, mut journals) = ([0; SEGMENT], [0; QUEUE_DATA], [0; JOURNAL_DATA]);
    /// let mut disk = Disk::format(&mut card, &mut queue, &mut journals)?;
    /// disk.begin(2, 16)?;
    /// assert_eq!(disk.begin(2, 16), Err(Refusal::UnitOpen));
    /// # Ok::<(), Refusal>(())
    /// ```
    pub fn begin(&mut self, unit: usize, window: usize) -> Result<(), Refusal> {
        reply(self.lent.begin(unit, window), ())
    }

    /// Queues the unit's changes as one, and closes the unit: after a power cut all of them are found, or none.
    ///
    /// # Errors
    ///
    /// - [`StreamClosed`](Refusal::StreamClosed): the unit is not open.
    /// - [`Conflict`](Refusal::Conflict): a change does not apply to what others have committed since. The unit is closed, its
    ///   changes are gone, and the count of its window is one higher.
    /// - [`QueueFull`](Refusal::QueueFull): the unit stays open. A flush makes room.
    ///
    /// ```
    /// # use numgalis::{Disk, Refusal, JOURNAL_DATA, QUEUE_DATA, SEGMENT};
    /// # let (mut card, mut queue, mut journals) = ([0; SEGMENT], [0; QUEUE_DATA], [0; JOURNAL_DATA]);
    /// let mut disk = Disk::format(&mut card, &mut queue, &mut journals)?;
    /// let list = disk.new_list(0)?;
    /// disk.begin(1, 9)?;
    /// disk.new_block(1, list, 0)?;
    /// disk.delete_list(0, list)?;
    /// assert_eq!(disk.end(1), Err(Refusal::Conflict));
    /// assert_eq!(disk.conflicts(9), Ok(1));
    /// # Ok::<(), Refusal>(())
    /// ```
    pub fn end(&mut self, unit: usize) -> Result<(), Refusal> {
        reply(self.lent.end(unit), ())
    }

    /// Stores the queue on the card, byte by byte, with at most `allowance` stores. The next flush goes on where this one
    /// stopped.
    ///
    /// # Errors
    ///
    /// [`OutOfRange`](Refusal::OutOfRange): `allowance` is above [`ALLOWANCE`](crate::ALLOWANCE).
    ///
    /// ```
    /// # use numgalis::{Disk, Ending, Flushed, Refusal, ALLOWANCE, JOURNAL_DATA, QUEUE_DATA, SEGMENT};
    /// # let (mut card, mut queue, mut journals) = ([0; SEGMENT], [0; QUEUE_DATA], [0; JOURNAL_DATA]);
    /// let mut disk = Disk::format(&mut card, &mut queue, &mut journals)?;
    /// disk.new_list(0)?;
    /// assert_eq!(disk.flush(2)?, Flushed { stores: 2, ending: Ending::Spent });
    /// assert_eq!(disk.flush(ALLOWANCE)?, Flushed { stores: 1, ending: Ending::Drained });
    /// # Ok::<(), Refusal>(())
    /// ```
    pub fn flush(&mut self, allowance: usize) -> Result<Flushed, Refusal> {
        let (answer, stores, ending) = self.lent.flush(allowance);
        let ending = match ending {
            0 => Ending::Drained,
            1 => Ending::Full,
            2 => Ending::Spent,
            _ => unreachable!("the archive has no ending {ending}"),
        };
        reply(answer, Flushed { stores, ending })
    }

    /// Copies the 256 bytes of `block` to `dest` and returns the race for which they were written, 0 for none.
    ///
    /// # Errors
    ///
    /// - [`StreamClosed`](Refusal::StreamClosed): the view is not 0, 5 or an open unit's.
    /// - [`OutOfRange`](Refusal::OutOfRange): `block` is not 1 to 64, or `dest` not [`BLOCK`](crate::BLOCK) bytes long.
    /// - [`BlockNotPlaced`](Refusal::BlockNotPlaced).
    /// - [`Unwritten`](Refusal::Unwritten): in this view it was not written since it was put.
    ///
    /// ```
    /// # use numgalis::{Disk, Refusal, BLOCK, COMMITTED, JOURNAL_DATA, QUEUE_DATA, SEGMENT};
    /// # let (mut card, mut queue, mut journals) = ([0; SEGMENT], [0; QUEUE_DATA], [0; JOURNAL_DATA]);
    /// let mut disk = Disk::format(&mut card, &mut queue, &mut journals)?;
    /// let list = disk.new_list(0)?;
    /// let block = disk.new_block(0, list, 0)?;
    /// let mut content = [0; BLOCK];
    /// assert_eq!(disk.read(COMMITTED, block, &mut content), Err(Refusal::Unwritten));
    ///
    /// disk.write(0, block, 5, &[7; BLOCK])?;
    /// assert_eq!(disk.read(COMMITTED, block, &mut content), Ok(5));
    /// assert_eq!(content, [7; BLOCK]);
    /// # Ok::<(), Refusal>(())
    /// ```
    pub fn read(&self, view: usize, block: usize, dest: &mut [u8]) -> Result<usize, Refusal> {
        let (answer, race) = self.lent.read(view, block, dest);
        reply(answer, race)
    }

    /// The block behind `predecessor` on `list`, the first if that is 0; 0 at the end.
    ///
    /// # Errors
    ///
    /// - [`StreamClosed`](Refusal::StreamClosed): the view is not 0, 5 or an open unit's.
    /// - [`OutOfRange`](Refusal::OutOfRange): `list` is not 1 to 16, or `predecessor` above 64.
    /// - [`ListNotTaken`](Refusal::ListNotTaken).
    /// - [`PredecessorElsewhere`](Refusal::PredecessorElsewhere): it is not 0 and not on the list.
    ///
    /// ```
    /// # use numgalis::{Disk, Refusal, COMMITTED, JOURNAL_DATA, QUEUE_DATA, SEGMENT};
    /// # let (mut card, mut queue, mut journals) = ([0; SEGMENT], [0; QUEUE_DATA], [0; JOURNAL_DATA]);
    /// let mut disk = Disk::format(&mut card, &mut queue, &mut journals)?;
    /// let list = disk.new_list(0)?;
    /// let block = disk.new_block(0, list, 0)?;
    /// assert_eq!(disk.next(COMMITTED, list, 0), Ok(block));
    /// assert_eq!(disk.next(COMMITTED, list, block), Ok(0));
    /// # Ok::<(), Refusal>(())
    /// ```
    pub fn next(&self, view: usize, list: usize, predecessor: usize) -> Result<usize, Refusal> {
        let (answer, block) = self.lent.next(view, list, predecessor);
        reply(answer, block)
    }

    /// Puts the numbers of the lists taken into `dest`, those taken earliest first, and returns the part with them. The bytes
    /// behind it stay as they were.
    ///
    /// # Errors
    ///
    /// - [`StreamClosed`](Refusal::StreamClosed): the view is not 0, 5 or an open unit's.
    /// - [`OutOfRange`](Refusal::OutOfRange): `dest` is not [`INVENTORY`](crate::INVENTORY) bytes long.
    ///
    /// ```
    /// # use numgalis::{Disk, Refusal, COMMITTED, INVENTORY, JOURNAL_DATA, QUEUE_DATA, SEGMENT};
    /// # let (mut card, mut queue, mut journals) = ([0; SEGMENT], [0; QUEUE_DATA], [0; JOURNAL_DATA]);
    /// let mut disk = Disk::format(&mut card, &mut queue, &mut journals)?;
    /// disk.new_list(0)?;
    /// disk.new_list(0)?;
    /// assert_eq!(disk.inventory(COMMITTED, &mut [0; INVENTORY])?, [1, 2]);
    /// # Ok::<(), Refusal>(())
    /// ```
    pub fn inventory<'b>(&self, view: usize, dest: &'b mut [u8]) -> Result<&'b [u8], Refusal> {
        let (answer, count) = self.lent.inventory(view, dest);
        reply(answer, &dest[..count])
    }

    /// Puts the printed page of the view into `buffer` and returns the text: lines of 40 characters and a line end. A list's
    /// number stands in columns 1 to 4, its blocks in columns of 3 from the sixth on, eleven to a line; the lists ascend. The
    /// bytes behind the text stay as they were.
    ///
    /// # Errors
    ///
    /// - [`StreamClosed`](Refusal::StreamClosed): the view is not 0, 5 or an open unit's.
    /// - [`BufferTooShort`](Refusal::BufferTooShort): [`PAGE`](crate::PAGE) bytes are always enough.
    ///
    /// ```
    /// # use numgalis::{Disk, Refusal, COMMITTED, JOURNAL_DATA, PAGE, QUEUE_DATA, SEGMENT};
    /// # let (mut card, mut queue, mut journals) = ([0; SEGMENT], [0; QUEUE_DATA], [0; JOURNAL_DATA]);
    /// let mut disk = Disk::format(&mut card, &mut queue, &mut journals)?;
    /// let list = disk.new_list(0)?;
    /// disk.new_block(0, list, 0)?;
    /// assert_eq!(disk.page(COMMITTED, &mut [0; PAGE])?, format!("{:<40}\n", "   1   1"));
    /// # Ok::<(), Refusal>(())
    /// ```
    pub fn page<'b>(&self, view: usize, buffer: &'b mut [u8]) -> Result<&'b str, Refusal> {
        let (answer, length) = self.lent.page(view, buffer);
        reply(answer, &buffer[..length]).map(|text| str::from_utf8(text).expect("a page is digits and blanks"))
    }

    /// How many ends of units for `window` were conflicts since the card was mounted or formatted; the count stops at 65,535.
    ///
    /// # Errors
    ///
    /// [`OutOfRange`](Refusal::OutOfRange): `window` is not 1 to 16.
    ///
    /// ```
    /// # use numgalis::{Disk, Refusal, JOURNAL_DATA, QUEUE_DATA, SEGMENT};
    /// # let (mut card, mut queue, mut journals) = ([0; SEGMENT], [0; QUEUE_DATA], [0; JOURNAL_DATA]);
    /// let disk = Disk::format(&mut card, &mut queue, &mut journals)?;
    /// assert_eq!(disk.conflicts(16), Ok(0));
    /// assert_eq!(disk.conflicts(17), Err(Refusal::OutOfRange));
    /// # Ok::<(), Refusal>(())
    /// ```
    pub fn conflicts(&self, window: usize) -> Result<usize, Refusal> {
        let (answer, count) = self.lent.conflicts(window);
        reply(answer, count)
    }

    /// Lists in `words` the stores that a flush with this allowance would make now, in their order, as many of them as there
    /// is room for. [`FLUSH_STORES`](crate::FLUSH_STORES) words are always enough.
    ///
    /// For a card behind a driver: the disk works on a copy in memory, and the driver makes the stores listed, one by one.
    ///
    /// # Errors
    ///
    /// [`OutOfRange`](Refusal::OutOfRange): `allowance` is above [`ALLOWANCE`](crate::ALLOWANCE).
    ///
    /// ```
    /// # use numgalis::{Disk, Refusal, ALLOWANCE, FLUSH_STORES, JOURNAL_DATA, QUEUE_DATA, SEGMENT};
    /// # let (mut card, mut queue, mut journals) = ([0; SEGMENT], [0; QUEUE_DATA], [0; JOURNAL_DATA]);
    /// # let mut device = card;
    /// let mut disk = Disk::format(&mut card, &mut queue, &mut journals)?;
    /// disk.new_list(0)?;
    /// for store in disk.flush_stores(2, &mut [0; FLUSH_STORES])? {
    ///     device[store.offset] = store.byte;
    /// }
    /// disk.flush(2)?;
    /// assert_eq!(device, disk.card());
    /// # Ok::<(), Refusal>(())
    /// ```
    pub fn flush_stores<'b>(&self, allowance: usize, words: &'b mut [u32]) -> Result<Stores<'b>, Refusal> {
        let (answer, count) = self.lent.flush_stores(allowance, words);
        reply(answer, Stores::new(&words[..count]))
    }

    /// Lists in `words` the stores that a formatting would make, in their order, as many of them as there is room for: a
    /// segment's count each. [`SEGMENTS`](crate::SEGMENTS) words are always enough.
    ///
    /// ```
    /// # use numgalis::{Disk, Refusal, JOURNAL_DATA, QUEUE_DATA, RECORD, SEGMENT, SEGMENTS};
    /// # let (mut card, mut queue, mut journals) = ([255; SEGMENT], [0; QUEUE_DATA], [0; JOURNAL_DATA]);
    /// # let mut device = card;
    /// let mut disk = Disk::with_record(&mut card, &mut queue, &mut journals, [0; RECORD]);
    /// for store in disk.format_stores(&mut [0; SEGMENTS])? {
    ///     device[store.offset] = store.byte;
    /// }
    /// disk.reformat()?;
    /// assert_eq!(device, disk.card());
    /// # Ok::<(), Refusal>(())
    /// ```
    pub fn format_stores<'b>(&self, words: &'b mut [u32]) -> Result<Stores<'b>, Refusal> {
        let (answer, count) = self.lent.format_stores(words);
        reply(answer, Stores::new(&words[..count]))
    }
}

impl fmt::Debug for Disk<'_> {
    /// The card's length alone: the bytes would say nothing.
    fn fmt(&self, f: &mut fmt::Formatter<'_>) -> fmt::Result {
        f.debug_struct("Disk")
            .field("card_length", &self.lent.card.len())
            .finish_non_exhaustive()
    }
}

/// What a flush did.
#[derive(Clone, Copy, Debug, PartialEq, Eq, Hash)]
pub struct Flushed {
    /// The bytes stored on the card.
    pub stores: usize,
    /// Why it made no more.
    pub ending: Ending,
}

/// Why a flush ended.
#[derive(Clone, Copy, Debug, PartialEq, Eq, Hash)]
pub enum Ending {
    /// The queue is empty: all that was committed is on the card.
    Drained,
    /// The next entry has no place on the card any more.
    Full,
    /// The allowance is used up.
    Spent,
}
