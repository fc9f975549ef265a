//! Document 02, E6, over whole scripts: which list numbers are given and held, what a unit's view shows of its lists, and
//! which situations scripts and cards reach.
//!
//! Numbers given, numbers held and the lists that a unit takes and deletes are kept beside random scripts from their lines and
//! answers alone. That the committed lists are right, and which of the free numbers is given, is the book's matter
//! (`book.rs`).

use std::collections::{BTreeMap, BTreeSet};

use second::entry::{Cause, Change, Entry};
use second::generator::{card, generate};
use second::limits::{LISTER_SEGMENTS, LISTS, SEGMENTS, UNITS};
use second::log::{entry_bytes, Log};
use second::shell::Shell;

mod reached;

use reached::Reached;

const SEEDS: u64 = 360;
const CARDS: u64 = 2_000;

/// What a unit does to lists.
#[derive(Clone, Copy, PartialEq)]
enum Step {
    Take(u8),
    Delete(u8),
}

/// What the lines of a script so far say of an open unit.
#[derive(Clone, Default)]
struct Unit {
    steps: Vec<Step>,
    /// Numbers that it was given.
    held: BTreeSet<u8>,
    /// Accepted changes, all kinds.
    journal: usize,
}

impl Unit {
    /// "After the committed lists, in journal order": these, and what the unit takes and deletes.
    fn lists_over(&self, committed: &[u8]) -> Vec<u8> {
        let mut lists = committed.to_vec();
        for &step in &self.steps {
            match step {
                Step::Take(list) if !lists.contains(&list) => lists.push(list),
                Step::Delete(list) => lists.retain(|&taken| taken != list),
                Step::Take(_) => {}
            }
        }
        lists
    }

    fn has_deleted(&self, list: u8) -> bool {
        self.steps.contains(&Step::Delete(list))
    }
}

/// The lists of a view, if it can be had.
fn inventory(shell: &mut Shell, view: u64) -> Option<Vec<u8>> {
    let mut lists = [0; LISTS as usize];
    let count = shell.lent().inventory(view, &mut lists).ok()?;
    Some(lists[..count].to_vec())
}

#[derive(Default)]
struct Observer {
    reached: Reached,
    /// After an accepted mounting or formatting, up to a cut or another card.
    is_running: bool,
    given_last: u8,
    units: BTreeMap<u64, Unit>,
    /// The committed lists before the next line, if there are any to be had.
    committed: Option<Vec<u8>>,
    /// Lists of units that were lost, and how.
    lost: BTreeMap<u8, &'static str>,
}

impl Observer {
    /// Another script begins.
    fn start(&mut self) {
        *self = Observer {
            reached: std::mem::take(&mut self.reached),
            ..Observer::default()
        };
    }

    fn is_held(&self, list: u8) -> bool {
        self.units.values().any(|unit| unit.held.contains(&list))
    }

    /// The numbers that are in no use and held by no unit.
    fn free(&self, committed: &[u8]) -> BTreeSet<u8> {
        let free = (1..=LISTS).filter(|list| !committed.contains(list) && !self.is_held(*list));
        free.collect()
    }

    fn observe(&mut self, line: &[u8], printed: &str, shell: &mut Shell) {
        let line = String::from_utf8_lossy(line).to_string();
        let words: Vec<&str> = line.split(' ').filter(|word| !word.is_empty()).collect();
        if printed != "?\n" && !printed.is_empty() {
            let number = |word: usize| words.get(word).and_then(|word| word.parse().ok()).unwrap_or(u64::MAX);
            let mut answers = printed.split_ascii_whitespace().map(|word| word.parse().unwrap_or(0));
            let (answer, result) = (answers.next().unwrap_or(0), answers.next().unwrap_or(0));
            match words[0] {
                "newlist" => self.new_list(number(1), answer, result as u8, shell),
                "dellist" if answer == 0 => self.change(number(1), Some(Step::Delete(number(2) as u8))),
                "newblock" if answer == 0 => {
                    self.reach_own(number(1), number(2), "a block put on it");
                    self.change(number(1), None);
                }
                "newblock" | "dellist" | "next" if answer == 7 => {
                    let is_a_units = u8::try_from(number(2)).is_ok_and(|list| self.is_held(list));
                    self.reached
                        .add_if(is_a_units, &format!("{}: 7 of a unit's list", words[0]));
                }
                "write" | "delblock" if answer == 0 => self.change(number(1), None),
                "end" => self.end(number(1), answer),
                "mount" | "format" if answer == 0 => self.reset(),
                "cut" if printed.starts_with("cut") => {
                    let how = if words.len() == 1 {
                        "a cut"
                    } else {
                        "a cut inside a call"
                    };
                    self.lose_all(how);
                    self.is_running = false;
                }
                "card" => self.is_running = false,
                "inventory" | "show" | "page" if answer == 0 || words[0] == "show" => self.look(words[0], number(1)),
                _ => {}
            }
        }
        self.compare(&line, shell);
    }

    fn new_list(&mut self, stream: u64, answer: u64, list: u8, shell: &Shell) {
        let place = if stream == 0 { "stream 0" } else { "a unit" };
        let committed = self.committed.clone();
        let free = committed
            .as_ref()
            .map_or(BTreeSet::new(), |committed| self.free(committed));
        let is_full = self.units.get(&stream).is_some_and(|unit| unit.journal == 15);
        match answer {
            0 => {
                assert!(free.contains(&list), "the number given on {place}");
                self.reach_given(list, place);
                self.given_last = list;
                if stream > 0 {
                    self.change(stream, Some(Step::Take(list)));
                    self.units.entry(stream).or_default().held.insert(list);
                    let is_queue_full = shell.record().queue_room() == 0;
                    self.reached.add_if(is_queue_full, "taken in a unit, the queue full");
                }
            }
            10 => {
                assert!(free.is_empty());
                let held = self.units.values().any(|unit| !unit.held.is_empty());
                let deleted = self.units.values().any(|unit| {
                    let mut held = unit.held.iter();
                    held.any(|&list| unit.has_deleted(list))
                });
                self.reached.add_if(held, &format!("10 on {place}, lists held"));
                self.reached
                    .add_if(deleted, &format!("10 on {place}, a held list deleted"));
                self.reached.add_if(is_full, "10 before 11");
            }
            11 => {
                assert!(stream > 0 && is_full && !free.is_empty());
                self.reached.add("11");
            }
            13 => {
                assert!(stream == 0 && !free.is_empty());
                self.reached
                    .add_if(self.units.values().any(|unit| !unit.held.is_empty()), "13, lists held");
            }
            1 | 3 | 4 => {}
            _ => panic!("newlist is refused {answer}"),
        }
        assert!(answer == 0 || list == 0);
    }

    /// What is worth to be reached of a number just found to be right.
    fn reach_given(&mut self, list: u8, place: &str) {
        self.reached.add(format!("a list taken on {place}"));
        self.reached.add_if(
            list < self.given_last,
            &format!("a lower number after a greater one, on {place}"),
        );
        let is_one_held = (1..=LISTS).any(|other| self.is_held(other));
        self.reached
            .add_if(is_one_held, &format!("a number given on {place}, others held"));
        if let Some(how) = self.lost.remove(&list) {
            self.reached.add(format!("given again after {how}"));
        }
    }

    fn change(&mut self, stream: u64, step: Option<Step>) {
        if let Some(unit) = self.units.get_mut(&stream) {
            unit.journal += 1;
            unit.steps.extend(step);
        } else if stream > 0 {
            let unit = Unit {
                journal: 1,
                steps: step.into_iter().collect(),
                ..Unit::default()
            };
            self.units.insert(stream, unit);
        }
        if let Some(Step::Delete(list)) = step {
            self.reach_own(stream, u64::from(list), "deleted");
        }
    }

    fn reach_own(&mut self, stream: u64, list: u64, what: &str) {
        let unit = self.units.get(&stream);
        let is_own = unit.is_some_and(|unit| u8::try_from(list).is_ok_and(|list| unit.held.contains(&list)));
        self.reached.add_if(is_own, &format!("a unit's list: {what}"));
    }

    fn end(&mut self, unit: u64, answer: u64) {
        let Some(ended) = self.units.get(&unit).cloned() else {
            return;
        };
        let has_lists = !ended.held.is_empty();
        match answer {
            0 => {
                self.reached.add_if(has_lists, "an End with lists");
                self.reached.add_if(ended.held.len() > 1, "an End with several lists");
                let all_deleted = ended.held.iter().all(|&list| ended.has_deleted(list));
                self.reached
                    .add_if(has_lists && all_deleted, "an End with lists, all deleted again");
                let later = self.committed.as_ref().is_some_and(|committed| {
                    let mut held = ended.held.iter();
                    held.any(|list| committed.iter().any(|taken| taken > list))
                });
                self.reached
                    .add_if(later, "an End that takes a list behind a greater one");
            }
            12 => {
                self.reached.add_if(has_lists, "an End refused 12 with lists");
                self.lost.extend(ended.held.iter().map(|&list| (list, "refusal 12")));
            }
            13 => return self.reached.add_if(has_lists, "an End refused 13 with lists"),
            _ => return,
        }
        self.units.remove(&unit);
    }

    fn lose_all(&mut self, how: &'static str) {
        for (_, unit) in std::mem::take(&mut self.units) {
            self.lost.extend(unit.held.iter().map(|&list| (list, how)));
        }
    }

    fn reset(&mut self) {
        self.lose_all("a mounting");
        self.is_running = true;
        self.given_last = 0;
    }

    /// A look at a view's lists, with those of units in it or not.
    fn look(&mut self, how: &str, view: u64) {
        let own = self.units.get(&view).map_or(0, |unit| unit.held.len());
        let others = self.units.iter().filter(|&(&other, _)| other != view);
        let held_by_others = others.map(|(_, unit)| unit.held.len()).sum::<usize>();
        self.reached.add_if(own > 0, &format!("{how} of its unit"));
        let place = match view {
            0 => "view 0",
            5 => "view 5",
            _ => "another unit",
        };
        self.reached
            .add_if(held_by_others > 0, &format!("{how} in {place}, lists held"));
    }

    /// After each line the record holds these numbers, and each unit's view has these lists.
    fn compare(&mut self, line: &str, shell: &mut Shell) {
        self.committed = inventory(shell, 0).filter(|_| self.is_running);
        if !self.is_running {
            return;
        }
        for unit in 1..=UNITS {
            let held = shell.record().unit(unit).held_lists;
            let known = self.units.get(&u64::from(unit));
            for list in 1..=LISTS {
                let is_known = known.is_some_and(|unit| unit.held.contains(&list));
                assert_eq!(held.has(list), is_known, "list {list} of unit {unit} after {line}");
            }
        }
        let Some(committed) = &self.committed else { return };
        for (&number, unit) in &self.units {
            let Some(shown) = inventory(shell, number) else {
                continue;
            };
            assert_eq!(shown, unit.lists_over(committed), "view {number} after {line}");
            let own: Vec<u8> = shown.iter().copied().filter(|list| unit.held.contains(list)).collect();
            let has_both = !own.is_empty() && own.len() < shown.len();
            self.reached.add_if(has_both, "a view with committed lists and its own");
            self.reached
                .add_if(!own.is_sorted(), "a view with its own lists out of order");
            let is_before = own.first().is_some_and(|own| committed.iter().any(|taken| taken > own));
            self.reached
                .add_if(is_before, "a view with its own list behind a greater one");
        }
        let holders = self.units.values().filter(|unit| !unit.held.is_empty()).count();
        self.reached.add_if(holders > 1, "lists held by two units");
        self.reached.add_if(holders == 4, "lists held by four units");
    }
}

/// What a card has of members that take lists, if it is acceptable, or else what is wrong with one.
fn takes_of(card: &[u8]) -> Vec<String> {
    let mut found = Vec::new();
    let log = Log::read(card);
    let (segments, entry_at_fault) = match &log {
        Ok(log) => (log.used, None),
        Err(fault) if fault.cause == Cause::AfterEmpty => return found,
        Err(fault) => (usize::from(fault.segment) + 1, Some((fault.entry, fault.cause))),
    };
    // The run that the reader is in: of each member that takes a list its segment, of another none.
    let mut run: Vec<Option<usize>> = Vec::new();
    for segment in 0..segments {
        let bytes = entry_bytes(card, segment);
        let mut at = 0;
        let count = second::log::count_at(segment);
        for number in 0..card[count] {
            let is_at_fault = segment + 1 == segments && entry_at_fault.is_some_and(|(entry, _)| entry == number);
            if is_at_fault {
                let cause = entry_at_fault.map(|(_, cause)| cause);
                match (&bytes[at..], cause) {
                    (&[130, list, ..], Some(Cause::Range)) => found.push(format!("fault: list {list}")),
                    ([130], Some(Cause::Bounds)) => found.push("fault: a list behind the summary".to_string()),
                    (&[16, members, ..], Some(Cause::Inapplicable)) => {
                        let taken = run.iter().rev().take(usize::from(members));
                        let dead = run.iter().rev().skip(usize::from(members));
                        if taken.clone().any(Option::is_some) {
                            found.push("fault: a member of a commit with a take".to_string());
                        } else if dead.clone().any(Option::is_some) {
                            found.push("fault: a member of a commit, its take dead".to_string());
                        }
                    }
                    _ => {}
                }
                return found;
            }
            let Ok(decoded) = Entry::decode(&bytes[at..]) else {
                return found;
            };
            at += decoded.length;
            match decoded.entry {
                Entry::Member(change) => {
                    let takes = matches!(change, Change::TakeList { .. });
                    if takes && at == bytes.len() {
                        found.push("a take that ends with the summary".to_string());
                    }
                    run.push(takes.then_some(segment));
                }
                Entry::Plain(_) => {
                    if run.iter().any(Option::is_some) {
                        found.push("a take dead before a plain entry".to_string());
                    }
                    run.clear();
                }
                Entry::Commit { members } => {
                    let dead = run.len().saturating_sub(usize::from(members));
                    if run[..dead].iter().any(Option::is_some) {
                        found.push("a take dead before a commit".to_string());
                    }
                    if run[dead..].iter().any(Option::is_some) {
                        found.push("a take that acts".to_string());
                    }
                    if run[dead..].iter().flatten().any(|&begun| begun < segment) {
                        found.push("a take that acts in the next segment".to_string());
                    }
                    run.clear();
                }
            }
        }
    }
    if run.iter().any(Option::is_some) {
        found.push("a take dead at the end".to_string());
    }
    found
}

/// What members that take lists are demanded to be, in scripts and on cards.
const TAKES: &[&str] = &[
    "a take that acts",
    "a take that acts in the next segment",
    "a take that ends with the summary",
    "a take dead before a plain entry",
    "a take dead before a commit",
    "a take dead at the end",
    "fault: list 0",
    "fault: list 17",
    "fault: list 255",
    "fault: a list behind the summary",
    "fault: a member of a commit with a take",
    "fault: a member of a commit, its take dead",
];

#[test]
fn lists_of_units_are_held_and_shown() {
    let mut observer = Observer::default();
    for seed in 0..SEEDS {
        observer.start();
        generate(seed, None, &mut |line, printed, shell| {
            observer.observe(line, printed, shell);
            if line.starts_with(b"mount") {
                for take in takes_of(shell.lent().card) {
                    observer.reached.add(take);
                }
            }
        });
    }
    let reached = &observer.reached;
    for what in &reached.0 {
        println!("{what}");
    }
    reached.demand_each(&[
        "a list taken on stream 0",
        "a list taken on a unit",
        "a lower number after a greater one, on stream 0",
        "a lower number after a greater one, on a unit",
        "a number given on stream 0, others held",
        "a number given on a unit, others held",
        "taken in a unit, the queue full",
        "10 on stream 0, lists held",
        "10 on a unit, lists held",
        "10 on stream 0, a held list deleted",
        "10 on a unit, a held list deleted",
        "10 before 11",
        "11",
        "13, lists held",
        "newblock: 7 of a unit's list",
        "dellist: 7 of a unit's list",
        "next: 7 of a unit's list",
        "a unit's list: a block put on it",
        "a unit's list: deleted",
        "an End with lists",
        "an End with several lists",
        "an End with lists, all deleted again",
        "an End that takes a list behind a greater one",
        "an End refused 12 with lists",
        "an End refused 13 with lists",
        "given again after refusal 12",
        "given again after a mounting",
        "given again after a cut",
        "given again after a cut inside a call",
        "a view with committed lists and its own",
        "a view with its own lists out of order",
        "a view with its own list behind a greater one",
        "lists held by two units",
        "lists held by four units",
    ]);
    for look in ["inventory", "show", "page"] {
        reached.demand(&format!("{look} of its unit"));
        for place in ["view 0", "view 5", "another unit"] {
            reached.demand(&format!("{look} in {place}, lists held"));
        }
    }
    reached.demand_each(TAKES);
}

#[test]
fn cards_reach_members_that_take_lists() {
    for segments in [LISTER_SEGMENTS, SEGMENTS] {
        let mut reached = Reached::default();
        for seed in 0..CARDS {
            let card = card(seed, segments);
            if second::log::segments(&card).is_some_and(|count| count <= segments) {
                for take in takes_of(&card) {
                    reached.add(take);
                }
            }
        }
        for what in &reached.0 {
            println!("{what}");
        }
        reached.demand_each(TAKES);
    }
}
