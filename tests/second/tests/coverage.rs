//! What the generator's scripts reach: every refusal that a call can meet, every ending of a flush, every fault of a
//! log, and the states that are hard to come by.

use std::collections::BTreeMap;

use second::entry::Cause;
use second::generator::{card, generate};
use second::limits::{BLOCKS, BLOCK_BYTES, JOURNAL, LISTER_SEGMENTS, LISTS, QUEUE, SEGMENTS, SEGMENT_BYTES, UNITS};
use second::lister;
use second::log::{stores_of, Log};
use second::page;
use second::shell::Shell;
use second::state::State;

const SEEDS: u64 = 200;

/// The questions that each call asks; it is accepted too.
const QUESTIONS: &[(&str, &[u64])] = &[
    ("format", &[1]),
    ("mount", &[1, 2]),
    ("newlist", &[1, 3, 4, 10, 11, 13]),
    ("newblock", &[1, 3, 4, 5, 7, 9, 10, 11, 13]),
    ("write", &[1, 3, 4, 5, 8, 11, 13]),
    ("delblock", &[1, 3, 4, 5, 8, 11, 13]),
    ("dellist", &[1, 3, 4, 5, 7, 11, 13]),
    ("read", &[1, 3, 4, 5, 8, 15]),
    ("begin", &[1, 3, 4, 5, 6]),
    ("end", &[1, 3, 4, 12, 13]),
    ("flush", &[1, 3, 5]),
    ("next", &[1, 3, 4, 5, 7, 9]),
    ("conflicts", &[1, 3, 5]),
    ("inventory", &[1, 3, 4, 5]),
    ("page", &[1, 3, 4, 14]),
];

/// How often something was reached.
#[derive(Default)]
struct Reached(BTreeMap<String, u64>);

impl Reached {
    fn add(&mut self, what: impl Into<String>) {
        *self.0.entry(what.into()).or_default() += 1;
    }

    fn add_if(&mut self, is_reached: bool, what: &str) {
        if is_reached {
            self.add(what);
        }
    }

    fn assert(&self, what: &str) {
        assert!(self.0.contains_key(what), "not reached: {what}");
    }

    fn observe(&mut self, line: &[u8], printed: &str, shell: &mut Shell) {
        let line = String::from_utf8_lossy(line);
        let command = line.split_ascii_whitespace().next().unwrap_or("").to_string();
        if printed == "?\n" {
            return self.add("no command");
        }
        let answer = printed.split_ascii_whitespace().next().unwrap_or("");
        self.add_if(
            QUESTIONS.iter().any(|&(call, _)| call == command),
            &format!("{command} {answer}"),
        );
        match command.as_str() {
            "mount" if answer == "2" => {
                if let Err(fault) = Log::read(shell.lent().card) {
                    self.add(format!("fault {:?}", fault.cause));
                }
            }
            "mount" if answer == "0" => self.observe_log(shell),
            "flush" if answer == "0" => self.observe_flush(printed, shell),
            "read" if answer == "15" => self.add(format!("unwritten, read in {}", view_of(&line))),
            "show" if printed.contains("unwritten") => self.add(format!("unwritten, shown in {}", view_of(&line))),
            "list" => self.add_if(printed.contains("unwritten"), "unwritten, listed"),
            "read" => self.add_if(printed == "0 -\n", "zeros, read"),
            "page" => self.observe_page(&line, printed, shell),
            _ => {}
        }
        self.observe_record(shell);
    }

    fn observe_log(&mut self, shell: &mut Shell) {
        let card = shell.lent().card;
        let Ok(log) = Log::read(card) else { return };
        self.add_if(log.reading.run.length() > 0, "dead members at the end");
        self.add_if(log.reading.run.length() > JOURNAL, "a run longer than a commit");
        self.add_if(log.used == card.len() / SEGMENT_BYTES, "every segment in use");
        self.add_if(log.used > 16, "more than 16 segments in use");
        self.add_if(log.used == 64, "64 segments in use");
        self.add_if(log.end.count == 255, "255 entries in a segment");
        self.add_if(log.end.bytes == 511, "511 bytes in a segment");
        self.add_if(log.end.slots == 14, "14 slots in a segment");
    }

    fn observe_flush(&mut self, printed: &str, shell: &mut Shell) {
        let ending = printed.split_ascii_whitespace().last().unwrap_or("");
        self.add(format!("ending {ending}"));
        let record = shell.record();
        let Some(head) = record.head() else { return };
        let (done, total) = (record.done(), stores_of(head));
        let is_in_data = head.is_write() && done < BLOCK_BYTES;
        self.add_if(done > 0 && is_in_data, "stopped in data");
        self.add_if(head.is_write() && done == BLOCK_BYTES, "stopped behind data");
        self.add_if(done > 0 && !is_in_data && done + 1 < total, "stopped in an entry");
        self.add_if(done + 1 == total, "stopped before a count");
        self.add_if(
            record.head_place() > 0 && record.head_place() + record.queue_length() > QUEUE,
            "the ring closed",
        );
    }

    fn observe_page(&mut self, line: &str, printed: &str, shell: &mut Shell) {
        let words: Vec<u64> = line
            .split_ascii_whitespace()
            .filter_map(|word| word.parse().ok())
            .collect();
        let (view, lent) = (words[0], words.get(1).map_or(820, |&lent| lent as usize));
        let shell = shell.lent();
        let Ok(versions) = shell.versions() else { return };
        let Ok(state) = shell.view(&versions, view) else { return };
        let (length, place) = (page::length(&state), view_of(line));
        self.add_if(length > 0 && lent + 1 == length, "a buffer that is a byte too short");
        self.add_if(length > 0 && lent + 41 == length, "a buffer that is a line too short");
        if printed.starts_with("14 ") {
            self.add(format!("a page refused 14 in {place}"));
            self.add_if(words.len() == 1, "a page refused 14 in the shell's own buffer");
            return;
        }
        self.add(if length == 0 { "an empty page in " } else { "a page in " }.to_string() + place);
        self.add_if(length > 0 && lent == length, "a page that fills its buffer");
        self.add_if(length > 0 && lent == length + 1, "a byte behind a page");
        self.add_if(
            length == 820 && words.len() == 1,
            "a page that fills the shell's own buffer",
        );
        self.add_if(length == page::LONGEST, "the longest page");
        self.add_if(
            !state.lists().is_sorted(),
            &format!("lists out of order on a page in {place}"),
        );
        for &list in state.lists() {
            self.add(format!("a list of {} blocks on a page", state.blocks_on(list).count()));
        }
        let other = if view == 0 { 5 } else { 0 };
        let other = shell
            .view(&versions, other)
            .map_or(length, |state| page::length(&state));
        self.add_if(other != length, &format!("a page in {place} of another length"));
    }

    fn observe_record(&mut self, shell: &mut Shell) {
        let [card, _, _] = shell.lengths_lent();
        let is_part = card < shell.card().len();
        let record = *shell.record();
        let Some(versions) = shell.versions() else { return };
        self.add_if(is_part, "a part of the card in use");
        self.add_if(is_part && record.done() > 0, "a part of the card in use, stores done");
        self.add_if(record.queue_length() == QUEUE, "a full queue");
        self.add_if(record.conflicts.iter().any(|&count| count > 2), "three conflicts");
        self.add_if(versions.committed.lists().len() == usize::from(LISTS), "16 lists");
        let blocks = (1..=BLOCKS).filter(|&block| versions.committed.is_on_a_list(block));
        self.add_if(blocks.count() == usize::from(BLOCKS), "64 blocks");
        let open = (1..=UNITS).filter(|&unit| record.unit(unit).is_open);
        self.add_if(open.clone().count() == usize::from(UNITS), "four units");
        self.add_if(
            open.clone().any(|unit| record.unit(unit).journal().len() == JOURNAL),
            "a full journal",
        );
        let (committed, persistent) = (versions.committed, versions.log.reading.state);
        self.add_if(
            loses_a_content(&persistent, &committed),
            "written in view 5, put again in view 0",
        );
        self.add_if(
            loses_a_content(&committed, &persistent),
            "written in view 0, unwritten in view 5",
        );
        for unit in open {
            let mut state = committed;
            let all_apply = record.unit(unit).replay(unit, &mut state);
            self.add_if(!all_apply, "a view with entries skipped");
            self.add_if(
                loses_a_content(&state, &committed),
                "written in a unit, unwritten in view 0",
            );
        }
    }
}

/// The view that a line names: 0, 5 or a unit's.
fn view_of(line: &str) -> &'static str {
    match line.split_ascii_whitespace().nth(1).and_then(|word| word.parse().ok()) {
        Some(0_u64) => "view 0",
        Some(5) => "view 5",
        _ => "a unit's view",
    }
}

/// Whether a block that is on lists of both states is written in `state` and unwritten in `other`.
fn loses_a_content(state: &State, other: &State) -> bool {
    (1..=BLOCKS)
        .any(|block| state.written(block).is_some() && other.is_on_a_list(block) && other.written(block).is_none())
}

#[test]
fn scripts_reach_every_refusal_ending_and_fault() {
    let mut reached = Reached::default();
    for seed in 0..SEEDS {
        generate(seed, None, &mut |line, printed, shell| {
            reached.observe(line, printed, shell)
        });
    }
    for (what, times) in &reached.0 {
        println!("{times:8} {what}");
    }
    for &(call, questions) in QUESTIONS {
        reached.assert(&format!("{call} 0"));
        for question in questions {
            reached.assert(&format!("{call} {question}"));
        }
    }
    for ending in ["drained", "full", "spent"] {
        reached.assert(&format!("ending {ending}"));
    }
    for cause in [
        Cause::Map,
        Cause::Range,
        Cause::Bounds,
        Cause::Slot,
        Cause::Run,
        Cause::Inapplicable,
        Cause::AfterEmpty,
    ] {
        reached.assert(&format!("fault {cause:?}"));
    }
    for state in [
        "no command",
        "dead members at the end",
        "a run longer than a commit",
        "every segment in use",
        "more than 16 segments in use",
        "64 segments in use",
        "255 entries in a segment",
        "511 bytes in a segment",
        "14 slots in a segment",
        "stopped in data",
        "stopped behind data",
        "stopped in an entry",
        "stopped before a count",
        "the ring closed",
        "a part of the card in use",
        "a part of the card in use, stores done",
        "a full queue",
        "three conflicts",
        "16 lists",
        "64 blocks",
        "four units",
        "a full journal",
        "a view with entries skipped",
        "unwritten, read in view 0",
        "unwritten, read in a unit's view",
        "unwritten, read in view 5",
        "unwritten, shown in view 0",
        "unwritten, shown in a unit's view",
        "unwritten, shown in view 5",
        "unwritten, listed",
        "zeros, read",
        "written in view 5, put again in view 0",
        "written in view 0, unwritten in view 5",
        "written in a unit, unwritten in view 0",
        "a buffer that is a byte too short",
        "a buffer that is a line too short",
        "a page refused 14 in the shell's own buffer",
        "a page that fills its buffer",
        "a byte behind a page",
        "a page that fills the shell's own buffer",
        "the longest page",
    ] {
        reached.assert(state);
    }
    for place in ["view 0", "a unit's view", "view 5"] {
        reached.assert(&format!("a page in {place}"));
        reached.assert(&format!("an empty page in {place}"));
        reached.assert(&format!("a page refused 14 in {place}"));
        reached.assert(&format!("a page in {place} of another length"));
        reached.assert(&format!("lists out of order on a page in {place}"));
    }
    for blocks in [0, 1, 10, 11, 12, 22, 23, 33, 34, 55, 56, 64] {
        reached.assert(&format!("a list of {blocks} blocks on a page"));
    }
}

#[test]
fn scripts_follow_from_their_seed_and_have_the_lines_asked_for() {
    for seed in 0..12 {
        let script = |lines| {
            let mut script = Vec::new();
            generate(seed, lines, &mut |line, _, _| script.push(line.to_vec()));
            script
        };
        assert_eq!(script(None), script(None));
        assert_eq!(script(Some(77)).len(), 77);
    }
}

#[test]
fn cards_reach_every_answer_of_the_lister() {
    let mut reached = Reached::default();
    for seed in 0..SEEDS {
        let card = card(seed, LISTER_SEGMENTS);
        let lines = lister::lines(&card);
        let first = lines.lines().next().unwrap_or("");
        reached.add(if first.starts_with("refused") { first } else { "listed" });
        reached.add_if(lines.contains("block"), "blocks");
        reached.add_if(lines.contains(": unwritten"), "an unwritten block");
        reached.add_if(lines.lines().any(|line| line.ends_with(':')), "an empty list");
        reached.add_if(card.len() == 17 * SEGMENT_BYTES, "17 segments");
        reached.add_if(first.starts_with("segments 16"), "16 segments");
        reached.add_if(!card.len().is_multiple_of(SEGMENT_BYTES), "an odd length");
    }
    for (what, times) in &reached.0 {
        println!("{times:8} {what}");
    }
    for what in [
        "refused 1",
        "refused 2",
        "listed",
        "blocks",
        "an unwritten block",
        "an empty list",
        "17 segments",
        "16 segments",
        "an odd length",
    ] {
        reached.assert(what);
    }
}

#[test]
fn cards_reach_every_answer_of_the_page_program() {
    let mut reached = Reached::default();
    for seed in 0..SEEDS {
        let card = card(seed, SEGMENTS);
        let text = String::from_utf8(page::of_card(&card)).unwrap_or_default();
        let first = text.lines().next().unwrap_or("an empty page");
        if first.starts_with("refused") || text.is_empty() {
            reached.add(first);
        }
        let is_page = !first.starts_with("refused");
        let blank = |line: &str, columns: std::ops::Range<usize>| line[columns].trim().is_empty();
        reached.add_if(is_page && text.lines().count() > 1, "a page of several lines");
        reached.add_if(is_page && text.lines().any(|line| blank(line, 0..4)), "a further line");
        reached.add_if(is_page && text.lines().any(|line| blank(line, 4..40)), "an empty list");
        reached.add_if(
            is_page && card.len() > 16 * SEGMENT_BYTES,
            "a page of more than 16 segments",
        );
        reached.add_if(is_page && card.len() == 64 * SEGMENT_BYTES, "a page of 64 segments");
        reached.add_if(card.len() == 65 * SEGMENT_BYTES, "65 segments");
        reached.add_if(!card.len().is_multiple_of(SEGMENT_BYTES), "an odd length");
    }
    for (what, times) in &reached.0 {
        println!("{times:8} {what}");
    }
    for what in [
        "refused 1",
        "refused 2",
        "an empty page",
        "a page of several lines",
        "a further line",
        "an empty list",
        "a page of more than 16 segments",
        "a page of 64 segments",
        "65 segments",
        "an odd length",
    ] {
        reached.assert(what);
    }
}
