//! Who ends first: document 02, E12.
//!
//! "Suppose two units are open, each would be accepted if it ended now, the queue takes both, and replayed alone on the
//! committed state they touch no list in common. A list is touched if an entry names it or it holds the block an entry names.
//! Then ending them in either order is accepted both times and gives the same lists, blocks, contents and races. The order of
//! free numbers and the inventory's order may differ."
//!
//! No call asks any of this. It says of which scripts the claim may be demanded.

use crate::disk::Refusal;
use crate::entry::Change;
use crate::record::NumberSet;
use crate::shell::Shell;
use crate::state::{Content, State};

/// The first part of the premise, in the order of its sentence, that two units don't meet.
#[derive(Clone, Copy, PartialEq, Eq, Debug)]
pub enum Unmet {
    /// "Two units are open".
    Open,
    /// "Each would be accepted if it ended now".
    Accepted(Refusal),
    /// "The queue takes both".
    Queue,
    /// "They touch no list in common".
    Apart,
}

/// Whether the claim is made of these two units, from 1 to 4.
pub fn premise(shell: &Shell, units: [u8; 2]) -> Result<(), Unmet> {
    let [one, other] = units.map(|unit| *shell.record().unit(unit));
    if units[0] == units[1] || !one.is_open || !other.is_open {
        return Err(Unmet::Open);
    }
    for unit in units {
        shell.clone().lent().end(u64::from(unit)).map_err(Unmet::Accepted)?;
    }
    if entries_of(shell, units) > shell.record().queue_room() {
        return Err(Unmet::Queue);
    }
    let versions = shell.clone().versions().ok_or(Unmet::Accepted(Refusal::Record))?;
    let [one, other] = [one, other].map(|unit| touched(unit.journal(), &versions.committed));
    if one.meets(other) {
        return Err(Unmet::Apart);
    }
    Ok(())
}

/// The entries that the Ends of two units add to the queue: journals and commits.
pub fn entries_of(shell: &Shell, units: [u8; 2]) -> usize {
    let added = units.map(|unit| shell.record().unit(unit).journal().len() + 1);
    added.iter().sum()
}

/// The lists that a journal touches "replayed alone on the committed state".
pub fn touched(journal: &[Change], committed: &State) -> NumberSet {
    let mut state = *committed;
    let mut touched = NumberSet::EMPTY;
    for &change in journal {
        for list in touched_by(change, &state).into_iter().flatten() {
            touched.add(list);
        }
        // which bytes a write brings touches nothing
        let _ = state.apply(change, Content::Queue { place: 0 });
    }
    touched
}

/// "A list is touched if an entry names it or it holds the block an entry names": by the state that the entry meets, so that
/// a deletion touches the list that it takes a block off.
fn touched_by(change: Change, state: &State) -> [Option<u8>; 3] {
    match change {
        Change::TakeList { list } | Change::DeleteList { list } => [Some(list), None, None],
        Change::PutFirst { block, list } => [Some(list), state.list_of(block), None],
        Change::PutAfter {
            block,
            list,
            predecessor,
        } => [Some(list), state.list_of(block), state.list_of(predecessor)],
        Change::Write { block, .. } | Change::DeleteBlock { block } => [state.list_of(block), None, None],
    }
}

#[cfg(test)]
mod tests {
    use super::*;

    /// A card of two segments with lists 1, 2 and 3: 1 has blocks 2 and 1, 2 has block 3.
    const LISTS: &str = "card 8192 165\nformat\nnewlist 0\nnewlist 0\nnewlist 0\n\
                         newblock 0 1 0\nnewblock 0 1 0\nnewblock 0 2 0\nflush 65535\n";

    /// The shell after these lists and a script's lines.
    fn shell_after(lines: &str) -> Shell {
        let mut shell = Shell::new(Vec::new());
        for line in LISTS.lines().chain(lines.lines()) {
            let mut printed = String::new();
            shell.run_line(line.as_bytes(), &mut printed);
            assert!(printed == "ok\n" || printed.starts_with('0'), "{line}: {printed}");
        }
        shell
    }

    fn premise_after(lines: &str) -> Result<(), Unmet> {
        premise(&shell_after(lines), [1, 2])
    }

    /// The lists that unit 1 touches after these lines in which it began.
    fn touched_after(lines: &str) -> Vec<u8> {
        let mut shell = shell_after(&format!("begin 1\n{lines}"));
        let committed = shell.versions().expect("the record is sound").committed;
        let touched = touched(shell.record().unit(1).journal(), &committed);
        (1..=16).filter(|&list| touched.has(list)).collect()
    }

    #[test]
    fn a_list_is_touched_by_its_number_and_by_its_blocks() {
        assert_eq!(touched_after(""), []);
        assert_eq!(touched_after("newlist 1"), [4]);
        assert_eq!(touched_after("newblock 1 3 0"), [3]);
        assert_eq!(touched_after("newblock 1 1 2"), [1]);
        assert_eq!(touched_after("write 1 3 07 256 5"), [2]);
        assert_eq!(touched_after("dellist 1 3"), [3]);
        assert_eq!(touched_after("write 1 1 07\nwrite 1 3 07"), [1, 2]);
    }

    /// A block is taken off its list, and the list is touched; what the unit itself put counts in its replay.
    #[test]
    fn what_is_touched_is_judged_before_the_entry_acts() {
        assert_eq!(touched_after("delblock 1 3"), [2]);
        assert_eq!(touched_after("newblock 1 3 0\nwrite 1 4 07\ndelblock 1 4"), [3]);
        assert_eq!(touched_after("newlist 1\nnewblock 1 4 0\ndellist 1 4"), [4]);
    }

    /// Block 3, which unit 1 has written, comes to be on list 3 before the unit ends: every other block is in use.
    #[test]
    fn what_is_touched_is_judged_on_the_committed_state_as_it_is_now() {
        let rest = "newblock 0 1 0\n".repeat(30) + "flush 65535\n";
        let moved = rest.repeat(2) + "newblock 0 1 0\nwrite 1 3 07\ndelblock 0 3\nnewblock 0 3 0";
        assert_eq!(touched_after(&moved), [3]);
    }

    #[test]
    fn two_units_that_touch_no_list_in_common() {
        assert_eq!(premise_after("begin 1\nbegin 2"), Ok(()));
        assert_eq!(premise_after("begin 1\nbegin 2\nwrite 1 1 07\nwrite 2 3 08"), Ok(()));
        assert_eq!(
            premise_after("begin 1\nbegin 2\nnewlist 1\nnewlist 2\nnewblock 1 4 0"),
            Ok(())
        );
        assert_eq!(premise_after("begin 1"), Err(Unmet::Open));
        let shell = shell_after("begin 1");
        assert_eq!(premise(&shell, [1, 1]), Err(Unmet::Open));
    }

    /// They would commute all the same; nothing is claimed.
    #[test]
    fn two_blocks_of_one_list_are_a_list_in_common() {
        let lines = "begin 1\nbegin 2\nwrite 1 1 07\nwrite 2 2 08";
        assert_eq!(premise_after(lines), Err(Unmet::Apart));
        let lines = "begin 1\nbegin 2\ndelblock 1 1\nnewblock 2 1 0";
        assert_eq!(premise_after(lines), Err(Unmet::Apart));
    }

    #[test]
    fn an_end_that_would_be_refused_now() {
        let lines = "begin 1\nbegin 2\nwrite 1 1 07\nwrite 2 3 08\ndelblock 0 3";
        assert_eq!(premise_after(lines), Err(Unmet::Accepted(Refusal::Conflict)));
        let full = "write 0 1 07\n".repeat(31) + "begin 1\nbegin 2\nwrite 1 1 07";
        assert_eq!(premise_after(&full), Err(Unmet::Accepted(Refusal::QueueFull)));
    }

    /// Each adds its change and a commit: four entries.
    #[test]
    fn a_queue_that_takes_one_of_them() {
        let units = "begin 1\nbegin 2\nwrite 1 1 07\nwrite 2 3 08";
        let waiting = |entries: usize| "write 0 1 07\n".repeat(entries) + units;
        assert_eq!(premise_after(&waiting(28)), Ok(()));
        assert_eq!(premise_after(&waiting(29)), Err(Unmet::Queue));
        assert_eq!(premise_after(&waiting(30)), Err(Unmet::Queue));
    }
}
