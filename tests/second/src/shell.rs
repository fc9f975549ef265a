//! The shell: one card, one record and both data buffers, lent to the calls that a script names, line by line.

use std::fmt::Write as _;
use std::io::{self, BufRead};

use crate::disk::{Ending, Flushed, Lent, MountRefusal, Refusal};
use crate::limits::{BLOCK_BYTES, JOURNAL_BYTES, LISTS, QUEUE_BYTES, SEGMENT_BYTES};
use crate::lister;
use crate::log::Fault;
use crate::record::{Record, Versions};

/// Longest card that can be put in: one segment more than a card may have.
pub const CARD_BYTES: usize = 65 * SEGMENT_BYTES;
/// Longest line of a script, without its end.
pub const LINE_BYTES: usize = 1_023;
/// Most bytes that `write`, `read` and `inventory` lend if told how many.
const PART_BYTES: usize = 300;
/// Bytes that `page` lends if not told how many, and most that it lends if told.
const PAGE_BYTES: usize = 820;
const MOST_PAGE_BYTES: usize = 1_000;
/// The window of `begin` and `conflicts` if not told which.
const WINDOW: u64 = 1;
/// The race of `write` if not told which.
const NO_RACE: u64 = 0;
/// What a cut leaves in both data buffers.
const CUT_BYTE: u8 = 165;
/// Most words of a command.
const WORDS: usize = 6;

/// The shell's card, buffers and record, and how much of each is lent.
#[derive(Clone)]
pub struct Shell {
    card: Vec<u8>,
    queue_data: Vec<u8>,
    journal_data: Vec<u8>,
    record: Record,
    card_lent: usize,
    queue_data_lent: usize,
    journal_data_lent: usize,
}

impl Shell {
    /// A shell with the bytes of a card file; the record is as after a cut.
    pub fn new(card: Vec<u8>) -> Shell {
        let card_lent = card.len();
        Shell {
            card,
            queue_data: vec![CUT_BYTE; QUEUE_BYTES],
            journal_data: vec![CUT_BYTE; JOURNAL_BYTES],
            record: Record::UNSOUND,
            card_lent,
            queue_data_lent: QUEUE_BYTES,
            journal_data_lent: JOURNAL_BYTES,
        }
    }

    /// The whole card.
    pub fn card(&self) -> &[u8] {
        &self.card
    }

    /// The record.
    pub fn record(&self) -> &Record {
        &self.record
    }

    /// Bytes lent of card, queue data and journal data.
    pub fn lengths_lent(&self) -> [usize; 3] {
        [self.card_lent, self.queue_data_lent, self.journal_data_lent]
    }

    /// What is lent to a call.
    pub fn lent(&mut self) -> Lent<'_> {
        Lent {
            card: &mut self.card[..self.card_lent],
            queue_data: &mut self.queue_data[..self.queue_data_lent],
            journal_data: &mut self.journal_data[..self.journal_data_lent],
            record: &mut self.record,
        }
    }

    /// The versions, if a call would get past questions 1 and 3.
    pub fn versions(&mut self) -> Option<Versions> {
        self.lent().versions().ok()
    }

    /// Runs one line of a script, without its end, and adds what it prints to `output`.
    pub fn run_line(&mut self, line: &[u8], output: &mut String) {
        if line.len() <= LINE_BYTES && (line.first() == Some(&b'#') || is_blank(line)) {
            return;
        }
        if self.run_command(line, output).is_none() {
            output.push_str("?\n");
        }
    }

    /// Runs a command; None, and nothing is printed or done, if the line is not one.
    fn run_command(&mut self, line: &[u8], output: &mut String) -> Option<()> {
        let mut words = [""; WORDS];
        let words = words_of(line, &mut words)?;
        match *words {
            ["card", length, byte] => {
                let length = number_to(length, CARD_BYTES)?;
                *self = Shell::new(vec![byte_of(byte)?; length]);
                output.push_str("ok\n");
            }
            ["format"] => print_answer(output, self.lent().format()),
            ["mount"] => {
                let (answer, segment, entry) = match self.lent().mount() {
                    Ok(()) => (0, 0, 0),
                    Err(MountRefusal::Lengths) => (1, 0, 0),
                    Err(MountRefusal::Log(Fault { segment, entry, .. })) => (2, segment, entry),
                };
                print(output, format_args!("{answer} {segment} {entry}"));
            }
            ["begin", unit] => print_answer(output, self.lent().begin(number(unit)?, WINDOW)),
            ["begin", unit, window] => {
                let (unit, window) = (number(unit)?, number(window)?);
                print_answer(output, self.lent().begin(unit, window));
            }
            ["end", unit] => print_answer(output, self.lent().end(number(unit)?)),
            ["newlist", stream] => {
                print_number(output, self.lent().new_list(number(stream)?));
            }
            ["newblock", stream, list, predecessor] => {
                let (stream, list, predecessor) = (number(stream)?, number(list)?, number(predecessor)?);
                print_number(output, self.lent().new_block(stream, list, predecessor));
            }
            ["write", stream, block, data] => {
                let (stream, block, data) = (number(stream)?, number(block)?, data_of(data)?);
                print_answer(output, self.lent().write(stream, block, &data[..BLOCK_BYTES], NO_RACE));
            }
            ["write", stream, block, data, length] => {
                let (stream, block, data) = (number(stream)?, number(block)?, data_of(data)?);
                let length = number_to(length, PART_BYTES)?;
                print_answer(output, self.lent().write(stream, block, &data[..length], NO_RACE));
            }
            ["write", stream, block, data, length, race] => {
                let (stream, block, data) = (number(stream)?, number(block)?, data_of(data)?);
                let (length, race) = (number_to(length, PART_BYTES)?, number(race)?);
                print_answer(output, self.lent().write(stream, block, &data[..length], race));
            }
            ["read", view, block] => self.print_read(output, number(view)?, number(block)?, BLOCK_BYTES),
            ["read", view, block, length] => {
                let length = number_to(length, PART_BYTES)?;
                self.print_read(output, number(view)?, number(block)?, length);
            }
            ["delblock", stream, block] => {
                let (stream, block) = (number(stream)?, number(block)?);
                print_answer(output, self.lent().delete_block(stream, block));
            }
            ["dellist", stream, list] => {
                let (stream, list) = (number(stream)?, number(list)?);
                print_answer(output, self.lent().delete_list(stream, list));
            }
            ["flush", allowance] => {
                let flushed = self.lent().flush(number(allowance)?);
                match flushed {
                    Ok(Flushed { stores, ending }) => {
                        print(output, format_args!("0 {stores} {}", ending_word(ending)));
                    }
                    Err(refusal) => print(output, format_args!("{} 0 -", refusal.number())),
                }
            }
            ["next", view, list, predecessor] => {
                let (view, list, predecessor) = (number(view)?, number(list)?, number(predecessor)?);
                print_number(output, self.lent().next_block(view, list, predecessor));
            }
            ["conflicts"] => print_number(output, self.lent().conflicts(WINDOW)),
            ["conflicts", window] => {
                let window = number(window)?;
                print_number(output, self.lent().conflicts(window));
            }
            ["inventory", view] => self.print_inventory(output, number(view)?, usize::from(LISTS)),
            ["inventory", view, length] => {
                let length = number_to(length, PART_BYTES)?;
                self.print_inventory(output, number(view)?, length);
            }
            ["page", view] => self.print_page(output, number(view)?, PAGE_BYTES),
            ["page", view, length] => {
                let length = number_to(length, MOST_PAGE_BYTES)?;
                self.print_page(output, number(view)?, length);
            }
            ["cut"] => {
                self.cut();
                output.push_str("cut\n");
            }
            ["cut", "flush", allowance, stores] => {
                let (allowance, stores) = (number(allowance)?, number(stores)?);
                let done = self.lent().flush_cut(allowance, stores);
                self.print_cut(output, done.map(|flushed| u64::from(flushed.stores)));
            }
            ["cut", "format", stores] => {
                let stores = number(stores)?;
                let done = self.lent().format_cut(stores);
                self.print_cut(output, done);
            }
            ["poke", at, byte] => {
                let (at, byte) = (number(at)?, byte_of(byte)?);
                *self.card.get_mut(usize::try_from(at).ok()?)? = byte;
                output.push_str("ok\n");
            }
            ["lend", "all"] => {
                self.lend_all();
                output.push_str("ok\n");
            }
            ["lend", buffer, length] => {
                let length = usize::try_from(number(length)?).unwrap_or(usize::MAX);
                match buffer {
                    "card" => self.card_lent = length.min(self.card.len()),
                    "queue" => self.queue_data_lent = length.min(QUEUE_BYTES),
                    "journal" => self.journal_data_lent = length.min(JOURNAL_BYTES),
                    _ => return None,
                }
                output.push_str("ok\n");
            }
            ["sum"] => print(output, format_args!("{}", adler_32(&self.card))),
            ["list"] => output.push_str(&lister::lines(&self.card)),
            ["show", view] => self.print_view(output, number(view)?),
            _ => return None,
        }
        Some(())
    }

    /// A power cut between calls.
    fn cut(&mut self) {
        self.queue_data.fill(CUT_BYTE);
        self.journal_data.fill(CUT_BYTE);
        self.record = Record::UNSOUND;
    }

    fn lend_all(&mut self) {
        self.card_lent = self.card.len();
        self.queue_data_lent = QUEUE_BYTES;
        self.journal_data_lent = JOURNAL_BYTES;
    }

    /// Prints the stores of a flush or formatting and cuts the power; refused, there is no cut.
    fn print_cut(&mut self, output: &mut String, done: Result<u64, Refusal>) {
        match done {
            Ok(stores) => {
                self.cut();
                print(output, format_args!("cut {stores}"));
            }
            Err(refusal) => print(output, format_args!("{}", refusal.number())),
        }
    }

    fn print_read(&mut self, output: &mut String, view: u64, block: u64, length: usize) {
        let mut destination = [0; PART_BYTES];
        let destination = &mut destination[..length];
        match self.lent().read(view, block, destination) {
            Ok(race) => print(output, format_args!("0 {}{}", hex(destination), race_words(race))),
            Err(refusal) => print(output, format_args!("{}", refusal.number())),
        }
    }

    fn print_inventory(&mut self, output: &mut String, view: u64, length: usize) {
        let mut lists = [0; PART_BYTES];
        match self.lent().inventory(view, &mut lists[..length]) {
            Ok(count) => {
                let _ = write!(output, "0 {count}");
                for list in &lists[..count] {
                    let _ = write!(output, " {list}");
                }
                output.push('\n');
            }
            Err(refusal) => print(output, format_args!("{} 0", refusal.number())),
        }
    }

    fn print_page(&mut self, output: &mut String, view: u64, length: usize) {
        let mut buffer = [0; MOST_PAGE_BYTES];
        match self.lent().page(view, &mut buffer[..length]) {
            Ok(length) => {
                print(output, format_args!("0 {length}"));
                output.extend(buffer[..length].iter().map(|&byte| char::from(byte)));
            }
            Err(refusal) => print(output, format_args!("{} 0", refusal.number())),
        }
    }

    /// The lists of a view with their blocks, then the blocks with their contents.
    fn print_view(&mut self, output: &mut String, view: u64) {
        let lent = self.lent();
        let state = match lent.versions().and_then(|versions| lent.view(&versions, view)) {
            Ok(state) => state,
            Err(refusal) => return print(output, format_args!("{}", refusal.number())),
        };
        for &list in state.lists() {
            output.push_str(&lister::list_line(&state, list));
        }
        for block in state.lists().iter().flat_map(|&list| state.blocks_on(list)) {
            let mut data = [0; BLOCK_BYTES];
            match lent.read(view, u64::from(block), &mut data) {
                Ok(race) => print(
                    output,
                    format_args!("block {block}: {}{}", hex(&data), race_words(race)),
                ),
                // The view is open and has the block on a list, so that nothing else is refused.
                Err(_) => print(output, format_args!("block {block}: {}", lister::UNWRITTEN)),
            }
        }
    }
}

/// The lines of a script, read one after the other.
pub struct Lines<R> {
    script: R,
    line: Vec<u8>,
}

impl<R: BufRead> Lines<R> {
    /// The lines of `script`.
    pub fn new(script: R) -> Lines<R> {
        Lines {
            script,
            line: Vec::with_capacity(LINE_BYTES + 1),
        }
    }

    /// The next line without its end, None after the last. Of a line that is too long only so much is kept that it
    /// is still seen to be.
    pub fn next_line(&mut self) -> io::Result<Option<&[u8]>> {
        self.line.clear();
        let mut is_begun = false;
        loop {
            let bytes = self.script.fill_buf()?;
            if bytes.is_empty() {
                return Ok(is_begun.then_some(&self.line));
            }
            is_begun = true;
            let end = bytes.iter().position(|&byte| byte == b'\n');
            let part = &bytes[..end.unwrap_or(bytes.len())];
            let room = LINE_BYTES + 1 - self.line.len();
            self.line.extend_from_slice(&part[..part.len().min(room)]);
            let taken = part.len() + usize::from(end.is_some());
            self.script.consume(taken);
            if end.is_some() {
                return Ok(Some(&self.line));
            }
        }
    }
}

fn is_blank(line: &[u8]) -> bool {
    line.iter().all(|&byte| byte == b' ')
}

/// The words of a line, apart by blanks; None if it is too long, has too many or is no text.
fn words_of<'a, 'b>(line: &'a [u8], words: &'b mut [&'a str; WORDS]) -> Option<&'b [&'a str]> {
    if line.len() > LINE_BYTES {
        return None;
    }
    let mut count = 0;
    let text = std::str::from_utf8(line).ok()?;
    for word in text.split(' ').filter(|word| !word.is_empty()) {
        *words.get_mut(count)? = word;
        count += 1;
    }
    Some(&words[..count])
}

/// "A number is decimal and fits 64 bits."
fn number(word: &str) -> Option<u64> {
    if word.bytes().all(|byte| byte.is_ascii_digit()) {
        word.parse().ok()
    } else {
        None
    }
}

fn number_to(word: &str, most: usize) -> Option<usize> {
    let number = usize::try_from(number(word)?).ok()?;
    (number <= most).then_some(number)
}

fn byte_of(word: &str) -> Option<u8> {
    u8::try_from(number(word)?).ok()
}

/// HEX: "an even count of hex digits, at most 512, or `-`; the bytes that it lacks of 256 are zeros". Zeros follow, as
/// many as a longer part needs.
fn data_of(word: &str) -> Option<[u8; PART_BYTES]> {
    let mut data = [0; PART_BYTES];
    if word == "-" {
        return Some(data);
    }
    let digits = word.as_bytes();
    if !digits.len().is_multiple_of(2) || digits.len() > 2 * BLOCK_BYTES {
        return None;
    }
    for (byte, pair) in data.iter_mut().zip(digits.chunks_exact(2)) {
        let high = char::from(pair[0]).to_digit(16)?;
        let low = char::from(pair[1]).to_digit(16)?;
        *byte = (high << 4 | low) as u8;
    }
    Some(data)
}

/// HEX as it is printed: "lower case without the zeros at its end, `-` if nothing is left".
fn hex(data: &[u8]) -> String {
    let length = data.iter().rposition(|&byte| byte != 0).map_or(0, |last| last + 1);
    if length == 0 {
        return "-".to_string();
    }
    let digit = |value: u8| char::from(b"0123456789abcdef"[usize::from(value)]);
    data[..length]
        .iter()
        .flat_map(|&byte| [digit(byte >> 4), digit(byte & 15)])
        .collect()
}

/// What stands behind the digits of a content: its race, "only where R is not 0".
fn race_words(race: u8) -> String {
    match race {
        0 => String::new(),
        race => format!(" race {race}"),
    }
}

fn ending_word(ending: Ending) -> &'static str {
    match ending {
        Ending::Drained => "drained",
        Ending::Full => "full",
        Ending::Spent => "spent",
    }
}

fn print(output: &mut String, line: std::fmt::Arguments<'_>) {
    // Writing to a string cannot fail.
    let _ = output.write_fmt(line);
    output.push('\n');
}

fn print_answer(output: &mut String, answer: Result<(), Refusal>) {
    print(output, format_args!("{}", answer.map_or_else(Refusal::number, |()| 0)));
}

fn print_number(output: &mut String, answer: Result<impl Into<u16>, Refusal>) {
    match answer {
        Ok(number) => print(output, format_args!("0 {}", number.into())),
        Err(refusal) => print(output, format_args!("{} 0", refusal.number())),
    }
}

/// Adler-32 of `bytes`, as zlib computes it.
fn adler_32(bytes: &[u8]) -> u32 {
    const MODULUS: u32 = 65_521;
    // Both sums of so many bytes fit 32 bits before they are reduced.
    const BYTES_AT_ONCE: usize = 5_552;
    let (mut low, mut high) = (1, 0);
    for part in bytes.chunks(BYTES_AT_ONCE) {
        for &byte in part {
            low += u32::from(byte);
            high += low;
        }
        low %= MODULUS;
        high %= MODULUS;
    }
    high << 16 | low
}
