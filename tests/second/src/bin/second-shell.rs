//! `second-shell PATH < SCRIPT`: runs a script of calls on the card file PATH.
//!
//! `second-shell --numbered PATH` prints before each line, and a blank, the number of the script's line that it
//! belongs to, from 1.

use std::fs::{self, File};
use std::io::{self, BufWriter, ErrorKind, IsTerminal, Read, Write};
use std::path::Path;
use std::process::ExitCode;

use second::shell::{Lines, Shell, CARD_BYTES};

fn main() -> ExitCode {
    let arguments: Vec<_> = std::env::args_os().skip(1).collect();
    let (is_numbered, path) = match &arguments[..] {
        [path] => (false, path),
        [option, path] if option == "--numbered" => (true, path),
        _ => {
            eprintln!("second-shell [--numbered] PATH < SCRIPT");
            return ExitCode::from(2);
        }
    };
    match run(Path::new(path), is_numbered) {
        Ok(()) => ExitCode::SUCCESS,
        Err(error) => {
            eprintln!("second-shell: {error}");
            ExitCode::FAILURE
        }
    }
}

fn run(path: &Path, is_numbered: bool) -> io::Result<()> {
    let mut output = BufWriter::new(io::stdout().lock());
    let Some(card) = read_card(path)? else {
        output.write_all(b"too long\n")?;
        return output.flush();
    };
    let before = card.clone();
    let mut shell = Shell::new(card);
    let is_dialogue = io::stdin().is_terminal();
    let mut lines = Lines::new(io::stdin().lock());
    let mut printed = String::new();
    let mut number = 0_u64;
    while let Some(line) = lines.next_line()? {
        number += 1;
        printed.clear();
        shell.run_line(line, &mut printed);
        if is_numbered {
            for line in printed.lines() {
                writeln!(output, "{number} {line}")?;
            }
        } else {
            output.write_all(printed.as_bytes())?;
        }
        if is_dialogue {
            output.flush()?;
        }
    }
    output.flush()?;
    // a card that is as it was read is not written: an empty one that was no file makes none
    if shell.card() == before {
        return Ok(());
    }
    fs::write(path, shell.card())
}

/// The bytes of a card file, none if there is no such file; None if it is too long.
fn read_card(path: &Path) -> io::Result<Option<Vec<u8>>> {
    let mut card = Vec::new();
    match File::open(path) {
        Ok(file) => {
            file.take(CARD_BYTES as u64 + 1).read_to_end(&mut card)?;
        }
        Err(error) if error.kind() == ErrorKind::NotFound => {}
        Err(error) => return Err(error),
    }
    Ok((card.len() <= CARD_BYTES).then_some(card))
}
