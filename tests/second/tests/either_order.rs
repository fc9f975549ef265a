//! Document 02, E12, over whole scripts: "ending them in either order is accepted both times and gives the same lists, blocks,
//! contents and races. The order of free numbers and the inventory's order may differ."
//!
//! Each script is run up to the Ends of two units, which then end in both orders. Where the premise holds, what the views show
//! is compared list by list; where it doesn't, what comes then is only noted.

use std::collections::BTreeSet;

use second::either_order::{entries_of, premise, Unmet};
use second::entry::Change;
use second::generator::{two_units, TwoUnits};
use second::limits::{JOURNAL, QUEUE, UNITS};
use second::record::Unit;
use second::shell::Shell;

mod reached;

use reached::Reached;

const SEEDS: u64 = 1_500;

fn printed(shell: &mut Shell, line: &[u8]) -> String {
    let mut printed = String::new();
    shell.run_line(line, &mut printed);
    printed
}

/// The lists of a view, each with its blocks in order, and the blocks with their contents and races; in whichever order they
/// are shown.
fn shown(shell: &mut Shell, view: u64) -> Vec<String> {
    let text = printed(shell, format!("show {view}").as_bytes());
    let mut lines: Vec<String> = text.lines().map(str::to_string).collect();
    lines.sort();
    lines
}

/// The shell after the Ends in this order, and their answers.
fn ended(before: &Shell, order: [u8; 2]) -> (Shell, [String; 2]) {
    let mut shell = before.clone();
    let answers = order.map(|unit| printed(&mut shell, format!("end {unit}").as_bytes()));
    (shell, answers)
}

fn kind_of(change: &Change) -> &'static str {
    match change {
        Change::TakeList { .. } => "a list taken",
        Change::PutFirst { .. } => "a put at the beginning",
        Change::PutAfter { .. } => "a put behind a block",
        Change::Write { race: 0, .. } => "a write",
        Change::Write { .. } => "a write for a race",
        Change::DeleteBlock { .. } => "a block deleted",
        Change::DeleteList { .. } => "a list deleted",
    }
}

/// What the units have changed, one of them and both.
fn reach_changes(reached: &mut Reached, units: [&Unit; 2]) {
    let [one, other] = units.map(|unit| unit.journal().iter().map(kind_of).collect::<BTreeSet<_>>());
    for kind in one.union(&other) {
        reached.add(*kind);
        reached.add_if(one.contains(kind) && other.contains(kind), &format!("{kind} by both"));
    }
    for unit in units {
        let length = unit.journal().len();
        reached.add_if(length == 0, "an empty unit");
        reached.add_if(length == JOURNAL, "a full journal");
        for &change in unit.journal() {
            match change {
                Change::DeleteList { list } if unit.held_lists.has(list) => {
                    reached.add("a list taken and deleted again");
                }
                Change::DeleteBlock { block } if unit.held_blocks.has(block) => {
                    reached.add("a block put and deleted again");
                }
                Change::Write { block, .. } if unit.held_blocks.has(block) => reached.add("a block put and written"),
                Change::PutFirst { list, .. } | Change::PutAfter { list, .. } if unit.held_lists.has(list) => {
                    reached.add("a block put on a list taken in the unit");
                }
                _ => {}
            }
        }
    }
    let lengths = units.map(|unit| unit.journal().len());
    reached.add_if(lengths == [0, 0], "two empty units");
    reached.add_if(lengths == [JOURNAL, JOURNAL], "two full journals");
    reached.add_if(units[0].window == units[1].window, "two units of one window");
    reached.add_if(units[0].window != units[1].window, "units of two windows");
}

/// What the units end on.
fn reach_disk(reached: &mut Reached, pair: &TwoUnits) {
    let mut shell = pair.shell.clone();
    let record = *shell.record();
    let room = record.queue_room();
    reached.add_if(room == QUEUE, "an empty queue");
    reached.add_if(room < QUEUE, "entries waiting");
    reached.add_if(record.done() > 0, "a head that is begun");
    reached.add_if(room == entries_of(&shell, pair.units), "a queue that both fill");
    let open = (1..=UNITS).filter(|&unit| record.unit(unit).is_open).count();
    reached.add_if(open > 2, "a third unit open");
    let [committed, persistent] = [0, 5].map(|view| shown(&mut shell, view));
    reached.add_if(!persistent.is_empty(), "lists on the card");
    reached.add_if(committed != persistent, "lists or blocks in the queue");
    reached.add_if(record.free.blocks.listed().len() < 14, "few blocks free");
}

/// The claim, of one script.
fn compare_orders(reached: &mut Reached, seed: u64, pair: &TwoUnits) {
    let [one, other] = pair.units;
    let (mut first, answers) = ended(&pair.shell, [one, other]);
    assert_eq!(answers, ["0\n", "0\n"], "seed {seed}: {one}, then {other}");
    let (mut second, answers) = ended(&pair.shell, [other, one]);
    assert_eq!(answers, ["0\n", "0\n"], "seed {seed}: {other}, then {one}");
    // the views of other units too, which stand on the committed state
    for view in 0..=5 {
        assert_eq!(
            shown(&mut first, view),
            shown(&mut second, view),
            "seed {seed}: view {view}"
        );
    }
    let text = printed(&mut first, b"show 0");
    reached.add_if(text.contains("unwritten"), "an unwritten block");
    reached.add_if(text.contains("race"), "a block with a race");
    let inventories = [&mut first, &mut second].map(|shell| printed(shell, b"inventory 0"));
    reached.add_if(inventories[0] != inventories[1], "another order of the inventory");
    let [free, other_free] = [first.record().free, second.record().free];
    reached.add_if(free.blocks != other_free.blocks, "another order of free blocks");
    reached.add_if(free.lists != other_free.lists, "another order of free lists");
    let flushed = [&mut first, &mut second].map(|shell| printed(shell, b"flush 65535"));
    if flushed.iter().all(|line| line.ends_with("drained\n")) {
        reached.add("drained");
        for line in ["cut", "mount"] {
            for shell in [&mut first, &mut second] {
                printed(shell, line.as_bytes());
            }
        }
        for view in [0, 5] {
            assert_eq!(
                shown(&mut first, view),
                shown(&mut second, view),
                "seed {seed}: after mounting"
            );
        }
        let [free, other_free] = [first.record().free, second.record().free];
        reached.add_if(free != other_free, "another order of free numbers after mounting");
    }
}

/// What becomes of two units of which nothing is claimed.
fn note_outcome(reached: &mut Reached, pair: &TwoUnits, unmet: Unmet) {
    let [one, other] = pair.units;
    let (mut first, answers) = ended(&pair.shell, [one, other]);
    let (mut second, other_answers) = ended(&pair.shell, [other, one]);
    let what = match unmet {
        Unmet::Open => panic!("a unit is closed"),
        Unmet::Accepted(refusal) => return reached.add(format!("an End is refused {} now", refusal.number())),
        Unmet::Queue => "the queue takes one",
        Unmet::Apart => "a list in common",
    };
    for answers in [&answers, &other_answers] {
        reached.add(format!("{what}: {}, {}", answers[0].trim(), answers[1].trim()));
    }
    reached.add_if(
        answers != other_answers,
        &format!("{what}: by the order, who is accepted"),
    );
    let is_alike = shown(&mut first, 0) == shown(&mut second, 0);
    let both_accepted = answers == ["0\n", "0\n"] && other_answers == answers;
    reached.add_if(both_accepted && is_alike, &format!("{what}: alike all the same"));
    reached.add_if(
        both_accepted && !is_alike,
        &format!("{what}: by the order, what is left"),
    );
    for (shell, last, answers) in [(first, other, answers), (second, one, other_answers)] {
        assert_eq!(shell.record().unit(last).is_open, answers[1] == "13\n");
    }
}

#[test]
fn two_units_end_in_either_order() {
    let (mut reached, mut claimed) = (Reached::default(), 0);
    for seed in 0..SEEDS {
        let pair = two_units(seed);
        match premise(&pair.shell, pair.units) {
            Ok(()) => {
                claimed += 1;
                reach_changes(&mut reached, pair.units.map(|unit| pair.shell.record().unit(unit)));
                reach_disk(&mut reached, &pair);
                compare_orders(&mut reached, seed, &pair);
            }
            Err(unmet) => note_outcome(&mut reached, &pair, unmet),
        }
    }
    println!("{claimed} of {SEEDS} claimed");
    for what in &reached.0 {
        println!("{what}");
    }
    assert!(claimed > SEEDS / 2 && claimed < SEEDS);
    for what in [
        "a list taken",
        "a put at the beginning",
        "a put behind a block",
        "a write",
        "a write for a race",
        "a block deleted",
        "a list deleted",
    ] {
        reached.demand(what);
        reached.demand(&format!("{what} by both"));
    }
    reached.demand_each(&[
        "an empty unit",
        "two empty units",
        "a full journal",
        "two full journals",
        "a list taken and deleted again",
        "a block put and deleted again",
        "a block put and written",
        "a block put on a list taken in the unit",
        "two units of one window",
        "units of two windows",
        "an empty queue",
        "entries waiting",
        "a head that is begun",
        "a queue that both fill",
        "a third unit open",
        "lists on the card",
        "lists or blocks in the queue",
        "few blocks free",
        "an unwritten block",
        "a block with a race",
        "another order of the inventory",
        "another order of free blocks",
        "another order of free lists",
        "drained",
        "another order of free numbers after mounting",
        "a list in common: 0, 0",
        "a list in common: 0, 12",
        "a list in common: by the order, who is accepted",
        "a list in common: by the order, what is left",
        "a list in common: alike all the same",
        "the queue takes one: 0, 13",
        "an End is refused 12 now",
        "an End is refused 13 now",
    ]);
}

/// The two scripts differ in the Ends and in nothing else, and lead to where the premise was judged.
#[test]
fn scripts_differ_in_the_order_of_two_ends() {
    for seed in 0..40 {
        let pair = two_units(seed);
        let [one, other] = pair.units;
        let scripts = [pair.script([one, other]), pair.script([other, one])];
        assert_eq!(scripts[0], two_units(seed).script([one, other]));
        let [lines, other_lines] = [&scripts[0], &scripts[1]].map(|script| script.split(|&byte| byte == b'\n'));
        let (lines, other_lines) = (Vec::from_iter(lines), Vec::from_iter(other_lines));
        let differing: Vec<usize> = (0..lines.len()).filter(|&at| lines[at] != other_lines[at]).collect();
        let &[at, next] = &differing[..] else {
            panic!("{} lines differ", differing.len());
        };
        assert_eq!(
            (at + 1, lines[at], lines[next]),
            (next, other_lines[next], other_lines[at])
        );
        let mut shell = Shell::new(Vec::new());
        for line in &lines[..at] {
            printed(&mut shell, line);
        }
        assert_eq!(shell.record(), pair.shell.record());
        assert_eq!(shell.card(), pair.shell.card());
    }
}
