//! The book of document 01 ("Flush", demand 3), kept beside random scripts: the committed state is what the history
//! makes, the persistent one what its longest prefix makes whose closing stores are on the card, and a mount gives
//! that state, whatever was cut. Which blocks are unwritten is part of a state (document 02, E4), and so is the race of each
//! that is written (E10). A NewList in a unit joins its unit's batch (E6). Since when each number has been free
//! follows from the book too, and which number is given (E11).
//!
//! The book is fed the lines of a script, which calls are accepted, which are refused 12, and the numbers given. It
//! shares nothing with the library but the sizes: states are lists of lists here, and a free number has a time.

use std::collections::{BTreeMap, VecDeque};
use std::fmt::Write;

use second::generator::generate;
use second::limits::{BLOCKS, BLOCK_BYTES, ENTRY_BYTES, JOURNAL_BYTES, LISTS, QUEUE_BYTES, SEGMENT_BYTES, SLOTS};
use second::shell::Shell;

mod reached;

use reached::Reached;

const SEEDS: u64 = 180;
/// States are compared after calls that may change them all at once, and after every so many lines.
const LINES_BETWEEN_LOOKS: u64 = 5;

#[derive(Clone)]
enum Change {
    TakeList { list: u8 },
    Put { block: u8, list: u8, predecessor: u8 },
    Write { block: u8, written: Written },
    DeleteBlock { block: u8 },
    DeleteList { list: u8 },
}

/// What a write brings: its bytes and its race (document 02, E10).
#[derive(Clone)]
struct Written {
    data: Box<[u8; BLOCK_BYTES]>,
    race: u8,
}

impl Change {
    fn length(&self) -> usize {
        match self {
            Change::TakeList { .. } | Change::DeleteBlock { .. } | Change::DeleteList { .. } => 2,
            Change::Put { predecessor: 0, .. } => 3,
            Change::Put { .. } => 4,
            Change::Write { written, .. } => 3 + usize::from(written.race > 0),
        }
    }
}

/// A block's number and what was last written to it, none until it is written.
type Block = (u8, Option<Written>);

/// Lists taken in the order of their taking, each with its blocks.
#[derive(Default)]
struct Model {
    lists: Vec<(u8, Vec<Block>)>,
}

impl Model {
    fn of<'a>(history: impl Iterator<Item = &'a Accepted>) -> Model {
        let mut model = Model::default();
        for change in history.flat_map(|accepted| &accepted.changes) {
            model.apply(change);
        }
        model
    }

    fn blocks_on(&mut self, list: u8) -> &mut Vec<Block> {
        let found = self.lists.iter_mut().find(|(taken, _)| *taken == list);
        &mut found.expect("the list is taken").1
    }

    fn has_list(&self, list: u8) -> bool {
        self.lists.iter().any(|&(taken, _)| taken == list)
    }

    fn has_block(&self, block: u8) -> bool {
        let mut blocks = self.lists.iter().flat_map(|(_, blocks)| blocks);
        blocks.any(|&(other, _)| other == block)
    }

    fn apply(&mut self, change: &Change) {
        match *change {
            Change::TakeList { list } => {
                assert!(self.lists.iter().all(|&(taken, _)| taken != list));
                self.lists.push((list, Vec::new()));
            }
            Change::Put {
                block,
                list,
                predecessor,
            } => {
                assert!(self
                    .lists
                    .iter()
                    .flat_map(|(_, blocks)| blocks)
                    .all(|&(other, _)| other != block));
                let blocks = self.blocks_on(list);
                let place = match predecessor {
                    0 => 0,
                    _ => {
                        1 + blocks
                            .iter()
                            .position(|&(before, _)| before == predecessor)
                            .expect("it is on the list")
                    }
                };
                blocks.insert(place, (block, None));
            }
            Change::Write { block, ref written } => {
                let mut blocks = self.lists.iter_mut().flat_map(|(_, blocks)| blocks);
                blocks
                    .find(|(other, _)| *other == block)
                    .expect("the block is on a list")
                    .1 = Some(written.clone());
            }
            Change::DeleteBlock { block } => {
                let before: usize = self.lists.iter().map(|(_, blocks)| blocks.len()).sum();
                for (_, blocks) in &mut self.lists {
                    blocks.retain(|&(other, _)| other != block);
                }
                let after: usize = self.lists.iter().map(|(_, blocks)| blocks.len()).sum();
                assert_eq!(after + 1, before);
            }
            Change::DeleteList { list } => {
                self.blocks_on(list);
                self.lists.retain(|&(taken, _)| taken != list);
            }
        }
    }

    /// As the shell shows it.
    fn lines(&self) -> String {
        let mut lines = String::new();
        for (list, blocks) in &self.lists {
            let numbers: String = blocks.iter().map(|(block, _)| format!(" {block}")).collect();
            writeln!(lines, "list {list}:{numbers}").unwrap();
        }
        for (block, written) in self.lists.iter().flat_map(|(_, blocks)| blocks) {
            let words = match written {
                None => "unwritten".to_string(),
                Some(Written { data, race: 0 }) => digits(data),
                Some(Written { data, race }) => format!("{} race {race}", digits(data)),
            };
            writeln!(lines, "block {block}: {words}").unwrap();
        }
        lines
    }
}

/// Since when a number has been free, and how it came to be.
#[derive(Clone, Copy)]
struct Freed {
    /// Numbers that came to be free at one time count ascending.
    time: u64,
    how: &'static str,
    is_before_mount: bool,
}

/// The free numbers of a kind.
type Resting = BTreeMap<u8, Freed>;

/// "The number that has been free longest."
fn longest(resting: &Resting) -> Option<u8> {
    let times = resting.iter().map(|(&number, freed)| (freed.time, number));
    times.min().map(|(_, number)| number)
}

fn how_deleted(is_in_unit: bool, is_own: bool) -> &'static str {
    match (is_in_unit, is_own) {
        (false, _) => "deleted",
        (true, false) => "deleted in a unit",
        (true, true) => "made and deleted in a unit",
    }
}

/// Since when the numbers have been free that are in no use and held by no unit.
#[derive(Clone)]
struct Rest {
    time: u64,
    blocks: Resting,
    lists: Resting,
}

impl Rest {
    /// "Numbers never used come first, ascending."
    fn new() -> Rest {
        let never = Freed {
            time: 0,
            how: "never used",
            is_before_mount: false,
        };
        Rest {
            time: 0,
            blocks: (1..=BLOCKS).map(|block| (block, never)).collect(),
            lists: (1..=LISTS).map(|list| (list, never)).collect(),
        }
    }

    fn now(&mut self, how: &'static str) -> Freed {
        self.time += 1;
        Freed {
            time: self.time,
            how,
            is_before_mount: false,
        }
    }

    /// A change acts on `state`, a simple one or one of these that an End makes; then `state` is what it makes.
    fn follow(&mut self, change: &Change, state: &mut Model, of_end: Option<&[Change]>) {
        let is_in_unit = of_end.is_some();
        let makes = |makes: &dyn Fn(&Change) -> bool| of_end.is_some_and(|changes| changes.iter().any(makes));
        match *change {
            Change::TakeList { list } => {
                self.lists.remove(&list);
            }
            Change::Put { block, .. } => {
                self.blocks.remove(&block);
            }
            Change::DeleteBlock { block } => {
                let is_own = makes(&|made| matches!(*made, Change::Put { block: own, .. } if own == block));
                let freed = self.now(how_deleted(is_in_unit, is_own));
                assert!(self.blocks.insert(block, freed).is_none());
            }
            Change::DeleteList { list } => {
                let numbers: Vec<u8> = state.blocks_on(list).iter().map(|&(block, _)| block).collect();
                let how = match (numbers.is_sorted(), is_in_unit) {
                    (true, false) => "deleted with its list",
                    (true, true) => "deleted with its list in a unit",
                    (false, false) => "deleted with its list, not ascending",
                    (false, true) => "deleted with its list in a unit, not ascending",
                };
                for block in numbers {
                    let freed = self.now(how);
                    assert!(self.blocks.insert(block, freed).is_none());
                }
                let is_own = makes(&|made| matches!(*made, Change::TakeList { list: own } if own == list));
                let freed = self.now(how_deleted(is_in_unit, is_own));
                assert!(self.lists.insert(list, freed).is_none());
            }
            Change::Write { .. } => {}
        }
        state.apply(change);
    }

    /// "Numbers released by a closing unit ascending": all at one time, but those that are free already, or in use.
    fn release(&mut self, changes: &[Change], state: &Model, how: &'static str) {
        let freed = self.now(how);
        for change in changes {
            match *change {
                Change::TakeList { list } if !state.has_list(list) => {
                    self.lists.entry(list).or_insert(freed);
                }
                Change::Put { block, .. } if !state.has_block(block) => {
                    self.blocks.entry(block).or_insert(freed);
                }
                _ => {}
            }
        }
    }

    /// After mounting: what this history shows.
    fn of<'a>(history: impl Iterator<Item = &'a Accepted>) -> (Rest, Model) {
        let (mut rest, mut model) = (Rest::new(), Model::default());
        for accepted in history {
            let of_end = accepted.is_end.then_some(&accepted.changes[..]);
            for change in &accepted.changes {
                rest.follow(change, &mut model, of_end);
            }
        }
        let freed = rest.blocks.values_mut().chain(rest.lists.values_mut());
        freed.for_each(|freed| freed.is_before_mount = true);
        (rest, model)
    }
}

/// As the shell prints bytes.
fn digits(data: &[u8; BLOCK_BYTES]) -> String {
    let length = data.iter().rposition(|&byte| byte != 0).map_or(0, |last| last + 1);
    if length == 0 {
        return "-".to_string();
    }
    data[..length].iter().map(|byte| format!("{byte:02x}")).collect()
}

/// One entry of the serial history: a simple change, or the changes of an End.
struct Accepted {
    changes: Vec<Change>,
    is_end: bool,
    /// The segment that holds its closing store.
    closed_in: Option<usize>,
}

/// One entry of the waiting line.
struct Waiting {
    length: usize,
    is_write: bool,
    /// The entry of the history that its last store closes.
    closes: Option<usize>,
}

impl Waiting {
    /// "Each entry takes one store more than its length, a write 256 besides."
    fn stores(&self) -> u64 {
        (self.length + 1 + if self.is_write { BLOCK_BYTES } else { 0 }) as u64
    }
}

/// What the book knows of a segment: entries, bytes of entries and slots.
#[derive(Clone, Copy, Default)]
struct Segment {
    entries: usize,
    bytes: usize,
    slots: usize,
}

struct Book {
    history: Vec<Accepted>,
    line: VecDeque<Waiting>,
    /// Stores done of the first entry of the line.
    done: u64,
    batches: [Vec<Change>; 4],
    segments: Vec<Segment>,
    /// What the whole history makes, and the numbers that are free then.
    committed: Model,
    rest: Rest,
}

impl Book {
    fn new(segments: usize) -> Book {
        Book {
            history: Vec::new(),
            line: VecDeque::new(),
            done: 0,
            batches: Default::default(),
            segments: vec![Segment::default(); segments],
            committed: Model::default(),
            rest: Rest::new(),
        }
    }

    fn change(&mut self, stream: usize, change: Change) {
        if stream > 0 {
            match change {
                Change::TakeList { list } => self.rest.lists.remove(&list),
                Change::Put { block, .. } => self.rest.blocks.remove(&block),
                _ => None,
            };
            return self.batches[stream - 1].push(change);
        }
        self.rest.follow(&change, &mut self.committed, None);
        self.wait(&change, Some(self.history.len()));
        self.history.push(Accepted {
            changes: vec![change],
            is_end: false,
            closed_in: None,
        });
    }

    fn wait(&mut self, change: &Change, closes: Option<usize>) {
        self.line.push_back(Waiting {
            length: change.length(),
            is_write: matches!(change, Change::Write { .. }),
            closes,
        });
    }

    fn end(&mut self, unit: usize) {
        let changes = std::mem::take(&mut self.batches[unit - 1]);
        for change in &changes {
            self.wait(change, None);
            self.rest.follow(change, &mut self.committed, Some(&changes));
        }
        self.rest.release(&changes, &self.committed, "released by an End");
        self.line.push_back(Waiting {
            length: 2,
            is_write: false,
            closes: Some(self.history.len()),
        });
        self.history.push(Accepted {
            changes,
            is_end: true,
            closed_in: None,
        });
    }

    /// An End is refused 12.
    fn drop_batch(&mut self, unit: usize) {
        let changes = std::mem::take(&mut self.batches[unit - 1]);
        self.rest.release(&changes, &self.committed, "released by refusal 12");
    }

    /// Goes along the line for at most so many stores; returns how many there were, and the ending.
    fn flush(&mut self, allowance: u64) -> (u64, &'static str) {
        let mut stores = 0;
        loop {
            let Some(first) = self.line.front() else {
                return (stores, "drained");
            };
            let last_used = self
                .segments
                .iter()
                .rposition(|segment| segment.entries > 0)
                .unwrap_or(0);
            let segment = &self.segments[last_used];
            let fits = segment.bytes + first.length <= ENTRY_BYTES
                && segment.slots + usize::from(first.is_write) <= usize::from(SLOTS);
            let place = if fits { last_used } else { last_used + 1 };
            if place == self.segments.len() {
                return (stores, "full");
            }
            if stores == allowance {
                return (stores, "spent");
            }
            stores += 1;
            self.done += 1;
            if self.done == first.stores() {
                self.done = 0;
                self.segments[place].entries += 1;
                self.segments[place].bytes += first.length;
                self.segments[place].slots += usize::from(first.is_write);
                if let Some(closes) = first.closes {
                    self.history[closes].closed_in = Some(place);
                }
                self.line.pop_front();
            }
        }
    }

    /// "Store k of a formatting empties the k-th segment from the end, taking its closing stores off the card."
    fn format(&mut self, stores: u64) {
        for segment in (0..self.segments.len()).rev().take(stores as usize) {
            self.segments[segment] = Segment::default();
            for accepted in &mut self.history {
                if accepted.closed_in == Some(segment) {
                    accepted.closed_in = None;
                }
            }
        }
    }

    /// "The history becomes its longest prefix whose closing stores are on the card."
    fn clear(&mut self) {
        self.line.clear();
        self.done = 0;
        self.batches = Default::default();
        self.history.truncate(self.prefix());
        (self.rest, self.committed) = Rest::of(self.history.iter());
    }

    fn prefix(&self) -> usize {
        let is_open = |accepted: &Accepted| accepted.closed_in.is_none();
        self.history.iter().position(is_open).unwrap_or(self.history.len())
    }

    fn check(&self, shell: &mut Shell) {
        for (view, length) in [(0, self.history.len()), (5, self.prefix())] {
            let mut shown = String::new();
            shell.run_line(format!("show {view}").as_bytes(), &mut shown);
            assert_eq!(
                shown,
                Model::of(self.history.iter().take(length)).lines(),
                "view {view}"
            );
        }
    }
}

/// A book beside a script. There is none while someone else has written on the card or parts are lent: the next one
/// starts right after an accepted formatting.
struct Keeper {
    book: Option<Book>,
    reached: Reached,
    /// How often each number was given since the book began, blocks and lists apart.
    given: BTreeMap<(&'static str, u8), u64>,
    lines: u64,
    mounts: u64,
    looks: u64,
}

impl Keeper {
    /// "NewBlock and NewList now give the number that has been free longest"; 10 if there is none.
    fn check_given(&mut self, kind: &'static str, stream: u64, answer: &str, given: u8) {
        let Some(book) = &self.book else { return };
        let resting = if kind == "list" {
            &book.rest.lists
        } else {
            &book.rest.blocks
        };
        let held = book.batches.iter().flatten().any(|change| match change {
            Change::TakeList { .. } => kind == "list",
            Change::Put { .. } => kind == "block",
            _ => false,
        });
        let deleted = book.batches.iter().flatten().any(|change| match change {
            Change::DeleteList { .. } => kind == "list",
            Change::DeleteBlock { .. } => kind == "block",
            _ => false,
        });
        let place = if stream == 0 { "stream 0" } else { "a unit" };
        match answer {
            "0" => {
                assert_eq!(longest(resting), Some(given), "the {kind} given on {place}");
                let freed = resting[&given];
                let when = if freed.is_before_mount { ", before a mount" } else { "" };
                self.reached.add(format!("a {kind} given: {}{when}", freed.how));
                self.reached.add(format!("a {kind} given on {place}"));
                self.reached
                    .add_if(held, &format!("a {kind} given on {place}, others held"));
                let is_lowest = resting.keys().next() == Some(&given);
                self.reached
                    .add_if(!is_lowest, &format!("a {kind} given on {place}, a lower one free"));
                self.reached
                    .add_if(deleted, &format!("a {kind} given on {place}, others deleted in units"));
                let same = resting.values().filter(|other| other.time == freed.time).count();
                self.reached.add_if(
                    same > 1 && freed.time > 0,
                    &format!("a {kind} given: one of several released"),
                );
                *self.given.entry((kind, given)).or_default() += 1;
                let greatest = if kind == "list" { LISTS } else { BLOCKS };
                let is_often = |number| self.given.get(&(kind, number)).is_some_and(|&count| count >= 3);
                let all_often = (1..=greatest).all(is_often);
                self.reached.add_if(all_often, &format!("every {kind} given 3 times"));
            }
            "10" => {
                assert!(resting.is_empty());
                self.reached
                    .add_if(held, &format!("10 for a {kind} on {place}, others held"));
            }
            "11" | "13" => {
                assert!(!resting.is_empty());
                self.reached.add(format!("{answer} for a {kind}"));
            }
            _ => {}
        }
    }

    fn observe(&mut self, line: &[u8], printed: &str, shell: &mut Shell) {
        let text = String::from_utf8_lossy(line);
        let words: Vec<&str> = text.split(' ').filter(|word| !word.is_empty()).collect();
        if printed == "?\n" || words.is_empty() || line[0] == b'#' {
            return;
        }
        self.lines += 1;
        let printed: Vec<&str> = printed.split_ascii_whitespace().collect();
        let number = |word: usize| words[word].parse::<u64>().expect("a number");
        let is_accepted = printed.first() == Some(&"0");
        match (words[0], is_accepted) {
            ("card" | "poke" | "lend", _) => self.book = None,
            ("format", true) => {
                let is_whole = shell.lengths_lent() == [shell.card().len(), QUEUE_BYTES, JOURNAL_BYTES];
                let segments = shell.card().len() / SEGMENT_BYTES;
                self.book = is_whole.then(|| Book::new(segments));
                self.given.clear();
            }
            _ => {}
        }
        if let ("newlist" | "newblock", Some(&answer), Some(&given)) = (words[0], printed.first(), printed.get(1)) {
            let kind = if words[0] == "newlist" { "list" } else { "block" };
            self.check_given(kind, number(1), answer, given.parse().expect("a number"));
        }
        let Some(book) = &mut self.book else { return };
        match (words[0], is_accepted) {
            ("newlist", true) => {
                let list = printed[1].parse().unwrap();
                book.change(number(1) as usize, Change::TakeList { list });
            }
            ("newblock", true) => {
                let change = Change::Put {
                    block: printed[1].parse().unwrap(),
                    list: number(2) as u8,
                    predecessor: number(3) as u8,
                };
                book.change(number(1) as usize, change);
            }
            ("write", true) => {
                let mut data = Box::new([0; BLOCK_BYTES]);
                for (byte, pair) in data.iter_mut().zip(words[3].as_bytes().chunks_exact(2)) {
                    *byte = u8::from_str_radix(std::str::from_utf8(pair).unwrap(), 16).unwrap();
                }
                let block = number(2) as u8;
                let race = if words.len() > 5 { number(5) as u8 } else { 0 };
                let written = Written { data, race };
                book.change(number(1) as usize, Change::Write { block, written });
            }
            ("delblock", true) => {
                let block = number(2) as u8;
                book.change(number(1) as usize, Change::DeleteBlock { block });
            }
            ("dellist", true) => {
                let list = number(2) as u8;
                book.change(number(1) as usize, Change::DeleteList { list });
            }
            ("end", true) => book.end(number(1) as usize),
            ("end", false) if printed[0] == "12" => book.drop_batch(number(1) as usize),
            ("flush", true) => {
                let (stores, ending) = book.flush(number(1));
                assert_eq!(printed, ["0", &stores.to_string(), ending], "{text}");
            }
            ("mount", true) => {
                book.clear();
                self.mounts += 1;
            }
            ("cut", _) if printed[0] == "cut" => {
                match words[..] {
                    ["cut", "flush", allowance, stores] => {
                        let most = allowance.parse::<u64>().unwrap().min(stores.parse().unwrap());
                        let (stores, _) = book.flush(most);
                        assert_eq!(printed[1], stores.to_string(), "{text}");
                    }
                    ["cut", "format", stores] => book.format(stores.parse().unwrap()),
                    _ => {}
                }
                book.clear();
            }
            _ => {}
        }
        let is_time = self.lines.is_multiple_of(LINES_BETWEEN_LOOKS) || matches!(words[0], "mount" | "flush" | "end");
        if is_time && shell.versions().is_some() {
            self.looks += 1;
            book.check(shell);
        }
    }
}

#[test]
fn states_are_what_the_book_says() {
    let mut keeper = Keeper {
        book: None,
        reached: Reached::default(),
        given: BTreeMap::new(),
        lines: 0,
        mounts: 0,
        looks: 0,
    };
    for seed in 0..SEEDS {
        keeper.book = None;
        generate(seed, None, &mut |line, printed, shell| {
            keeper.observe(line, printed, shell)
        });
    }
    println!(
        "{} lines, {} looks, {} mounts",
        keeper.lines, keeper.looks, keeper.mounts
    );
    assert!(keeper.mounts > 300 && keeper.looks > 5_000);
    let reached = &keeper.reached;
    for what in &reached.0 {
        println!("{what}");
    }
    for kind in ["block", "list"] {
        for how in [
            "never used",
            "deleted",
            "deleted in a unit",
            "made and deleted in a unit",
        ] {
            reached.demand(&format!("a {kind} given: {how}"));
            reached.demand(&format!("a {kind} given: {how}, before a mount"));
        }
        reached.demand(&format!("a {kind} given: released by refusal 12"));
        reached.demand(&format!("a {kind} given: one of several released"));
        for place in ["stream 0", "a unit"] {
            reached.demand(&format!("a {kind} given on {place}"));
            reached.demand(&format!("a {kind} given on {place}, others held"));
            reached.demand(&format!("a {kind} given on {place}, a lower one free"));
            reached.demand(&format!("a {kind} given on {place}, others deleted in units"));
            reached.demand(&format!("10 for a {kind} on {place}, others held"));
        }
        for refusal in [11, 13] {
            reached.demand(&format!("{refusal} for a {kind}"));
        }
    }
    for how in [
        "deleted with its list",
        "deleted with its list, not ascending",
        "deleted with its list in a unit",
        "deleted with its list in a unit, not ascending",
    ] {
        reached.demand(&format!("a block given: {how}"));
        reached.demand(&format!("a block given: {how}, before a mount"));
    }
    reached.demand_each(&["every block given 3 times", "every list given 3 times"]);
}
