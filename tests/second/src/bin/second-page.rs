//! `second-page < CARD`: prints the page of a card.

use std::io::{self, Read, Write};

use second::limits::{SEGMENTS, SEGMENT_BYTES};
use second::page;

fn main() -> io::Result<()> {
    let longest = SEGMENTS * SEGMENT_BYTES;
    let mut card = Vec::with_capacity(longest + 1);
    io::stdin().lock().take(longest as u64 + 1).read_to_end(&mut card)?;
    io::stdout().write_all(&page::of_card(&card))
}
