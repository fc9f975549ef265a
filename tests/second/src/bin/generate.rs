//! `generate SEED [LINES]`: prints a random script for the shell, which follows from its seed.
//!
//! `generate --card SEED` prints a random card for the lister, `generate --page SEED` one for the page program,
//! `generate --conflicts` the script in which the conflict count of a window stops, and `generate --either-order SEED` two
//! scripts that differ in the order of two Ends: a line that says whether E12 claims something of them, the one, a line
//! `# the other order`, the other.

use std::io::{self, Write};
use std::process::ExitCode;

use second::generator;
use second::limits::{LISTER_SEGMENTS, SEGMENTS};

fn main() -> ExitCode {
    let arguments: Vec<String> = std::env::args().skip(1).collect();
    let words: Vec<&str> = arguments.iter().map(String::as_str).collect();
    let printed = match words[..] {
        ["--card", seed] => print_card(seed, LISTER_SEGMENTS),
        ["--page", seed] => print_card(seed, SEGMENTS),
        ["--conflicts"] => Some(print(generator::conflicts_script().as_bytes())),
        ["--either-order", seed] => seed.parse().ok().map(print_either_order),
        [seed] => seed.parse().ok().map(|seed| print_script(seed, None)),
        [seed, lines] => match (seed.parse(), lines.parse()) {
            (Ok(seed), Ok(lines)) => Some(print_script(seed, Some(lines))),
            _ => None,
        },
        _ => None,
    };
    match printed {
        Some(Ok(())) => ExitCode::SUCCESS,
        Some(Err(error)) => {
            eprintln!("generate: {error}");
            ExitCode::FAILURE
        }
        None => {
            eprintln!(
                "generate SEED [LINES], generate --card SEED, generate --page SEED, generate --conflicts, or \
                 generate --either-order SEED"
            );
            ExitCode::from(2)
        }
    }
}

fn print_script(seed: u64, lines: Option<usize>) -> io::Result<()> {
    let mut script = Vec::new();
    generator::generate(seed, lines, &mut |line, _, _| {
        script.extend_from_slice(line);
        script.push(b'\n');
    });
    print(&script)
}

fn print_either_order(seed: u64) -> io::Result<()> {
    let pair = generator::two_units(seed);
    let [one, other] = pair.units;
    let heading = format!("# {}\n", pair.heading()).into_bytes();
    let scripts = [pair.script([one, other]), pair.script([other, one])];
    print(&[heading, scripts.join(&b"# the other order\n"[..])].concat())
}

fn print_card(seed: &str, segments: usize) -> Option<io::Result<()>> {
    seed.parse().ok().map(|seed| print(&generator::card(seed, segments)))
}

fn print(bytes: &[u8]) -> io::Result<()> {
    io::stdout().lock().write_all(bytes)
}
