//! What the lister prints for a card: document 01, "Runs with known outcome"; document 02, E4.

use std::fmt::Write;

use crate::limits::{BLOCKS, BLOCK_BYTES, LISTER_SEGMENTS, LISTS};
use crate::log::{segments, slot_at, Log};
use crate::state::{Content, State};

/// What is printed for a card of a wrong length, and for one whose log has a fault.
pub(crate) const LENGTH_REFUSED: &str = "refused 1\n";
pub(crate) const LOG_REFUSED: &str = "refused 2\n";

/// What stands in place of a content where there is none: "The lister prints `block 4: unwritten` for such a block."
pub const UNWRITTEN: &str = "unwritten";

/// The lister's lines for the bytes of a card.
pub fn lines(card: &[u8]) -> String {
    let Some(segments) = segments(card).filter(|&segments| segments <= LISTER_SEGMENTS) else {
        return LENGTH_REFUSED.to_string();
    };
    let Ok(log) = Log::read(card) else {
        return LOG_REFUSED.to_string();
    };
    let state = &log.reading.state;
    let mut lines = format!("segments {segments} used {} entries {}\n", log.used, log.entries);
    for list in (1..=LISTS).filter(|&list| state.is_taken(list)) {
        lines.push_str(&list_line(state, list));
    }
    for block in (1..=BLOCKS).filter(|&block| state.is_on_a_list(block)) {
        // Writing to a string cannot fail.
        let _ = match state.written(block) {
            Some(written) => writeln!(lines, "block {block}: {}", sum(card, written.content)),
            None => writeln!(lines, "block {block}: {UNWRITTEN}"),
        };
    }
    lines
}

/// The line of a list: its number, then its blocks in order, "a blank before each (an empty list ends at its colon)".
pub fn list_line(state: &State, list: u8) -> String {
    let mut line = format!("list {list}:");
    for block in state.blocks_on(list) {
        let _ = write!(line, " {block}");
    }
    line.push('\n');
    line
}

/// The sum of the bytes of a content of the persistent state, which stand in a slot.
fn sum(card: &[u8], content: Content) -> u32 {
    match content {
        Content::Slot { segment, slot } => card[slot_at(usize::from(segment), slot)..][..BLOCK_BYTES]
            .iter()
            .map(|&byte| u32::from(byte))
            .sum(),
        Content::Queue { .. } | Content::Journal { .. } => 0,
    }
}
