//! `second-lister < CARD`: prints the lists and blocks of a card.

use std::io::{self, Read, Write};

use second::limits::{LISTER_SEGMENTS, SEGMENT_BYTES};
use second::lister;

fn main() -> io::Result<()> {
    let longest = LISTER_SEGMENTS * SEGMENT_BYTES;
    let mut card = Vec::with_capacity(longest + 1);
    io::stdin().lock().take(longest as u64 + 1).read_to_end(&mut card)?;
    io::stdout().write_all(lister::lines(&card).as_bytes())
}
