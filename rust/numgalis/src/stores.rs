//! Byte stores, one by one: for a card that is reached through a driver.

use core::iter::FusedIterator;
use core::slice;

/// One byte stored on the card.
#[derive(Clone, Copy, Debug, PartialEq, Eq, Hash)]
pub struct Store {
    /// Where, from the card's beginning.
    pub offset: usize,
    /// What.
    pub byte: u8,
}

impl From<u32> for Store {
    /// The store that a word lists: offset × 256 + byte.
    ///
    /// ```
    /// # use numgalis::Store;
    /// assert_eq!(Store::from(3584 * 256 + 7), Store { offset: 3584, byte: 7 });
    /// ```
    fn from(word: u32) -> Store {
        Store {
            offset: (word / 256) as usize,
            byte: (word % 256) as u8,
        }
    }
}

/// The stores listed in the words of a caller's buffer, in the order in which they are made. How many: `len()`.
///
/// [`Disk::flush_stores`](crate::Disk::flush_stores) and [`Disk::format_stores`](crate::Disk::format_stores) return it.
#[derive(Clone, Debug)]
pub struct Stores<'b> {
    words: slice::Iter<'b, u32>,
}

impl<'b> Stores<'b> {
    pub(crate) fn new(words: &'b [u32]) -> Stores<'b> {
        Stores { words: words.iter() }
    }

    /// The words of the stores that are still to come, offset × 256 + byte each.
    pub fn words(&self) -> &'b [u32] {
        self.words.as_slice()
    }
}

impl Iterator for Stores<'_> {
    type Item = Store;

    fn next(&mut self) -> Option<Store> {
        self.words.next().map(|&word| Store::from(word))
    }

    fn size_hint(&self) -> (usize, Option<usize>) {
        self.words.size_hint()
    }
}

impl ExactSizeIterator for Stores<'_> {}

impl FusedIterator for Stores<'_> {}
