//! The functions of the archive, and the only `unsafe` of the crate.
//!
//! A function of the archive asks of its caller that no pointer is null or misaligned, that so many bytes or words stand
//! behind it as the length says (behind a record's always [`RECORD`]), that nothing lent overlaps anything else lent, and
//! that calls on one disk come one at a time. It requires nothing of the bytes and numbers. Here every pointer is that of
//! a reference which lives as long as the call, and the lengths are those of the slices: what is borrowed mutably is
//! borrowed by nobody else, and a shared one is only read.

use crate::RECORD;

// One line for card, queue data and journal data, one for the record and the call's own. `const` is what is only read.
#[rustfmt::skip]
extern "C" {
    fn numgalis_format(card: *mut u8, _: usize, queue: *const u8, _: usize, journals: *const u8, _: usize,
        record: *mut u8) -> usize;
    fn numgalis_mount(card: *const u8, _: usize, queue: *const u8, _: usize, journals: *const u8, _: usize,
        record: *mut u8, segment: *mut usize, entry: *mut usize) -> usize;
    fn numgalis_flush(card: *mut u8, _: usize, queue: *const u8, _: usize, journals: *const u8, _: usize,
        record: *mut u8, allowance: usize, stores: *mut usize, ending: *mut usize) -> usize;
    fn numgalis_new_list(card: *const u8, _: usize, queue: *const u8, _: usize, journals: *const u8, _: usize,
        record: *mut u8, stream: usize, list: *mut usize) -> usize;
    fn numgalis_new_block(card: *const u8, _: usize, queue: *const u8, _: usize, journals: *const u8, _: usize,
        record: *mut u8, stream: usize, list: usize, predecessor: usize, block: *mut usize) -> usize;
    fn numgalis_write(card: *const u8, _: usize, queue: *mut u8, _: usize, journals: *mut u8, _: usize,
        record: *mut u8, stream: usize, block: usize, race: usize, content: *const u8, _: usize) -> usize;
    fn numgalis_delete_block(card: *const u8, _: usize, queue: *const u8, _: usize, journals: *const u8, _: usize,
        record: *mut u8, stream: usize, block: usize) -> usize;
    fn numgalis_delete_list(card: *const u8, _: usize, queue: *const u8, _: usize, journals: *const u8, _: usize,
        record: *mut u8, stream: usize, list: usize) -> usize;
    fn numgalis_begin(card: *const u8, _: usize, queue: *const u8, _: usize, journals: *const u8, _: usize,
        record: *mut u8, unit: usize, window: usize) -> usize;
    fn numgalis_end(card: *const u8, _: usize, queue: *mut u8, _: usize, journals: *const u8, _: usize,
        record: *mut u8, unit: usize) -> usize;
    fn numgalis_read(card: *const u8, _: usize, queue: *const u8, _: usize, journals: *const u8, _: usize,
        record: *const u8, view: usize, block: usize, dest: *mut u8, _: usize, race: *mut usize) -> usize;
    fn numgalis_next(card: *const u8, _: usize, queue: *const u8, _: usize, journals: *const u8, _: usize,
        record: *const u8, view: usize, list: usize, predecessor: usize, block: *mut usize) -> usize;
    fn numgalis_inventory(card: *const u8, _: usize, queue: *const u8, _: usize, journals: *const u8, _: usize,
        record: *const u8, view: usize, dest: *mut u8, _: usize, count: *mut usize) -> usize;
    fn numgalis_page(card: *const u8, _: usize, queue: *const u8, _: usize, journals: *const u8, _: usize,
        record: *const u8, view: usize, buffer: *mut u8, _: usize, length: *mut usize) -> usize;
    fn numgalis_conflicts(card: *const u8, _: usize, queue: *const u8, _: usize, journals: *const u8, _: usize,
        record: *const u8, window: usize, count: *mut usize) -> usize;
    fn numgalis_flush_stores(card: *const u8, _: usize, queue: *const u8, _: usize, journals: *const u8, _: usize,
        record: *const u8, allowance: usize, stores: *mut u32, _: usize, count: *mut usize) -> usize;
    fn numgalis_format_stores(card: *const u8, _: usize, queue: *const u8, _: usize, journals: *const u8, _: usize,
        record: *const u8, stores: *mut u32, _: usize, count: *mut usize) -> usize;
}

/// Calls a function that only reads card, queue data and journal data.
macro_rules! call {
    ($function:ident, $lent:expr, $($more:expr),+) => {
        $function(
            $lent.card.as_ptr(),
            $lent.card.len(),
            $lent.queue.as_ptr(),
            $lent.queue.len(),
            $lent.journals.as_ptr(),
            $lent.journals.len(),
            $($more),+
        )
    };
}

/// What every call is lent. Each method returns the answer, 0 or the number of a refusal, and then the results.
pub struct Lent<'a> {
    pub card: &'a mut [u8],
    pub queue: &'a mut [u8],
    pub journals: &'a mut [u8],
    pub record: [u8; RECORD],
}

impl Lent<'_> {
    pub fn format(&mut self) -> usize {
        // SAFETY: all pointers and lengths are of this disk, which is borrowed mutably.
        unsafe {
            numgalis_format(
                self.card.as_mut_ptr(),
                self.card.len(),
                self.queue.as_ptr(),
                self.queue.len(),
                self.journals.as_ptr(),
                self.journals.len(),
                self.record.as_mut_ptr(),
            )
        }
    }

    /// Behind the answer: segment and entry of the log's first fault.
    pub fn mount(&mut self) -> (usize, usize, usize) {
        let (mut segment, mut entry) = (0, 0);
        let record = self.record.as_mut_ptr();
        // SAFETY: the record is only this disk's, which is borrowed mutably; both numbers are locals.
        let answer = unsafe { call!(numgalis_mount, self, record, &mut segment, &mut entry) };
        (answer, segment, entry)
    }

    /// Behind the answer: the stores done and the number of the ending.
    pub fn flush(&mut self, allowance: usize) -> (usize, usize, usize) {
        let (mut stores, mut ending) = (0, 0);
        // SAFETY: all pointers and lengths are of this disk, which is borrowed mutably; both numbers are locals.
        let answer = unsafe {
            numgalis_flush(
                self.card.as_mut_ptr(),
                self.card.len(),
                self.queue.as_ptr(),
                self.queue.len(),
                self.journals.as_ptr(),
                self.journals.len(),
                self.record.as_mut_ptr(),
                allowance,
                &mut stores,
                &mut ending,
            )
        };
        (answer, stores, ending)
    }

    pub fn new_list(&mut self, stream: usize) -> (usize, usize) {
        let mut list = 0;
        let record = self.record.as_mut_ptr();
        // SAFETY: the record is only this disk's, which is borrowed mutably; the number is a local.
        let answer = unsafe { call!(numgalis_new_list, self, record, stream, &mut list) };
        (answer, list)
    }

    pub fn new_block(&mut self, stream: usize, list: usize, predecessor: usize) -> (usize, usize) {
        let mut block = 0;
        let record = self.record.as_mut_ptr();
        // SAFETY: the record is only this disk's, which is borrowed mutably; the number is a local.
        let answer = unsafe { call!(numgalis_new_block, self, record, stream, list, predecessor, &mut block) };
        (answer, block)
    }

    pub fn write(&mut self, stream: usize, block: usize, race: usize, content: &[u8]) -> usize {
        // SAFETY: all pointers and lengths are of this disk, which is borrowed mutably, and of `content`, which is not of it.
        unsafe {
            numgalis_write(
                self.card.as_ptr(),
                self.card.len(),
                self.queue.as_mut_ptr(),
                self.queue.len(),
                self.journals.as_mut_ptr(),
                self.journals.len(),
                self.record.as_mut_ptr(),
                stream,
                block,
                race,
                content.as_ptr(),
                content.len(),
            )
        }
    }

    pub fn delete_block(&mut self, stream: usize, block: usize) -> usize {
        let record = self.record.as_mut_ptr();
        // SAFETY: the record is only this disk's, which is borrowed mutably.
        unsafe { call!(numgalis_delete_block, self, record, stream, block) }
    }

    pub fn delete_list(&mut self, stream: usize, list: usize) -> usize {
        let record = self.record.as_mut_ptr();
        // SAFETY: the record is only this disk's, which is borrowed mutably.
        unsafe { call!(numgalis_delete_list, self, record, stream, list) }
    }

    pub fn begin(&mut self, unit: usize, window: usize) -> usize {
        let record = self.record.as_mut_ptr();
        // SAFETY: the record is only this disk's, which is borrowed mutably.
        unsafe { call!(numgalis_begin, self, record, unit, window) }
    }

    pub fn end(&mut self, unit: usize) -> usize {
        // SAFETY: all pointers and lengths are of this disk, which is borrowed mutably.
        unsafe {
            numgalis_end(
                self.card.as_ptr(),
                self.card.len(),
                self.queue.as_mut_ptr(),
                self.queue.len(),
                self.journals.as_ptr(),
                self.journals.len(),
                self.record.as_mut_ptr(),
                unit,
            )
        }
    }

    pub fn read(&self, view: usize, block: usize, dest: &mut [u8]) -> (usize, usize) {
        let (mut race, room) = (0, dest.len());
        let (record, dest) = (self.record.as_ptr(), dest.as_mut_ptr());
        // SAFETY: of this disk all is only read; `dest`, borrowed mutably, is not of it, and the number is a local.
        let answer = unsafe { call!(numgalis_read, self, record, view, block, dest, room, &mut race) };
        (answer, race)
    }

    pub fn next(&self, view: usize, list: usize, predecessor: usize) -> (usize, usize) {
        let mut block = 0;
        let record = self.record.as_ptr();
        // SAFETY: of this disk all is only read; the number is a local.
        let answer = unsafe { call!(numgalis_next, self, record, view, list, predecessor, &mut block) };
        (answer, block)
    }

    pub fn inventory(&self, view: usize, dest: &mut [u8]) -> (usize, usize) {
        let (mut count, room) = (0, dest.len());
        let (record, dest) = (self.record.as_ptr(), dest.as_mut_ptr());
        // SAFETY: of this disk all is only read; `dest`, borrowed mutably, is not of it, and the number is a local.
        let answer = unsafe { call!(numgalis_inventory, self, record, view, dest, room, &mut count) };
        (answer, count)
    }

    pub fn page(&self, view: usize, buffer: &mut [u8]) -> (usize, usize) {
        let (mut length, room) = (0, buffer.len());
        let (record, buffer) = (self.record.as_ptr(), buffer.as_mut_ptr());
        // SAFETY: of this disk all is only read; `buffer`, borrowed mutably, is not of it, and the number is a local.
        let answer = unsafe { call!(numgalis_page, self, record, view, buffer, room, &mut length) };
        (answer, length)
    }

    pub fn conflicts(&self, window: usize) -> (usize, usize) {
        let mut count = 0;
        let record = self.record.as_ptr();
        // SAFETY: of this disk all is only read; the number is a local.
        let answer = unsafe { call!(numgalis_conflicts, self, record, window, &mut count) };
        (answer, count)
    }

    pub fn flush_stores(&self, allowance: usize, words: &mut [u32]) -> (usize, usize) {
        let (mut count, room) = (0, words.len());
        let (record, words) = (self.record.as_ptr(), words.as_mut_ptr());
        // SAFETY: of this disk all is only read; `words`, borrowed mutably, is not of it, and the number is a local.
        let answer = unsafe { call!(numgalis_flush_stores, self, record, allowance, words, room, &mut count) };
        (answer, count)
    }

    pub fn format_stores(&self, words: &mut [u32]) -> (usize, usize) {
        let (mut count, room) = (0, words.len());
        let (record, words) = (self.record.as_ptr(), words.as_mut_ptr());
        // SAFETY: of this disk all is only read; `words`, borrowed mutably, is not of it, and the number is a local.
        let answer = unsafe { call!(numgalis_format_stores, self, record, words, room, &mut count) };
        (answer, count)
    }
}
