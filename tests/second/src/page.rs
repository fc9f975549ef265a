//! A printed page: document 02, E1, "Print a view as lines of exactly 40 characters and a line end (byte 10)."

use std::io::{self, Write};

use crate::limits::{BLOCKS, LISTS};
use crate::lister::{LENGTH_REFUSED, LOG_REFUSED};
use crate::log::{segments, Log};
use crate::state::State;

/// Characters of a line, and its end.
pub const LINE_BYTES: usize = 40 + 1;
/// "Its blocks follow in order, right-aligned in 3 columns, eleven to a line".
const BLOCKS_TO_A_LINE: usize = 11;

/// Lines of the longest page: every list has one, and a further one for each eleven blocks behind its first. They are most
/// where one list has all blocks.
const LONGEST_LINES: usize = LISTS as usize + (BLOCKS as usize - 1) / BLOCKS_TO_A_LINE;
/// Bytes of the longest page: 861.
pub const LONGEST: usize = LONGEST_LINES * LINE_BYTES;

/// What the page program prints for the bytes of a card: the page of the persistent state, or the refusal in mounting.
pub fn of_card(card: &[u8]) -> Vec<u8> {
    if segments(card).is_none() {
        return LENGTH_REFUSED.into();
    }
    let Ok(log) = Log::read(card) else {
        return LOG_REFUSED.into();
    };
    let state = &log.reading.state;
    let mut text = vec![0; length(state)];
    put(state, &mut text);
    text
}

/// Bytes of the page of `state`.
pub fn length(state: &State) -> usize {
    LINE_BYTES * lists(state).map(|list| lines_of(state, list)).sum::<usize>()
}

/// Puts the page of `state` into a buffer of its length.
pub fn put(state: &State, mut text: &mut [u8]) {
    for list in lists(state) {
        for line in 0..lines_of(state, list) {
            // The buffer has the page's length, so that writing cannot fail.
            let _ = put_line(state, list, line, &mut text);
        }
    }
}

/// "Lists ascend."
fn lists(state: &State) -> impl Iterator<Item = u8> + '_ {
    (1..=LISTS).filter(|&list| state.is_taken(list))
}

/// Lines of a list: "An empty list has one line."
fn lines_of(state: &State, list: u8) -> usize {
    state.blocks_on(list).count().div_ceil(BLOCKS_TO_A_LINE).max(1)
}

/// "A list's number is right-aligned in columns 1 to 4 and column 5 is blank. [..] blanks fill the line. Further lines of a
/// list leave columns 1 to 4 blank."
fn put_line(state: &State, list: u8, line: usize, text: &mut &mut [u8]) -> io::Result<()> {
    if line == 0 {
        write!(text, "{list:>4} ")?;
    } else {
        write!(text, "{:5}", "")?;
    }
    let mut blocks = state.blocks_on(list).skip(line * BLOCKS_TO_A_LINE).fuse();
    for _ in 0..BLOCKS_TO_A_LINE {
        match blocks.next() {
            Some(block) => write!(text, "{block:>3}")?,
            None => write!(text, "{:3}", "")?,
        }
    }
    writeln!(text, "{:2}", "")
}
