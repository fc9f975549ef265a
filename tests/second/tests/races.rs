//! Document 02, E10, over whole scripts and cards: which situations with races they reach. That the races are right is the
//! book's matter (`book.rs`); here each line is held to what races may do to it.

use second::entry::{Cause, Change, Entry};
use second::generator::{card, generate};
use second::limits::{BLOCKS, BLOCK_BYTES, ENTRY_BYTES, LISTER_SEGMENTS, RACES, SEGMENTS, SEGMENT_BYTES, SLOTS};
use second::log::{entry_bytes, Fault, Log};
use second::record::Record;
use second::shell::Shell;
use second::state::State;

mod reached;

use reached::Reached;

const SEEDS: u64 = 340;
const CARDS: u64 = 2_000;

/// The views of a record that is sound: 0, those of open units, and 5.
struct Views {
    record: Record,
    states: [Option<State>; 6],
}

impl Views {
    fn of(shell: &mut Shell) -> Option<Views> {
        let lent = shell.lent();
        let versions = lent.versions().ok()?;
        let view = |view: usize| lent.view(&versions, view as u64).ok();
        Some(Views {
            record: *lent.record,
            states: std::array::from_fn(view),
        })
    }

    /// The race of what is written to `block` in a view; None if nothing is.
    fn race(&self, view: u64, block: u64) -> Option<u8> {
        let state = self.states.get(usize::try_from(view).ok()?)?.as_ref()?;
        (1..=u64::from(BLOCKS)).contains(&block).then_some(())?;
        state.written(block as u8).map(|written| written.race)
    }

    fn has_race(&self, view: usize) -> bool {
        let has_race = |state: &State| (1..=BLOCKS).any(|block| state.written(block).is_some_and(|it| it.race > 0));
        self.states[view].as_ref().is_some_and(has_race)
    }
}

fn race_of(entry: Entry) -> u8 {
    match entry.change() {
        Some(Change::Write { race, .. }) => race,
        _ => 0,
    }
}

/// Where races are written and read: stream or view 0, a unit's, view 5.
fn place_of(view: u64) -> &'static str {
    match view {
        0 => "0",
        5 => "5",
        _ => "a unit",
    }
}

/// What the scripts so far have reached, and the views before the next line.
#[derive(Default)]
struct Observer {
    reached: Reached,
    before: Option<Views>,
    /// What has come since the record was sound.
    since: &'static str,
    had_races: bool,
}

impl Observer {
    fn observe(&mut self, line: &[u8], printed: &str, shell: &mut Shell) {
        let line = String::from_utf8_lossy(line).to_string();
        let words: Vec<&str> = line.split(' ').filter(|word| !word.is_empty()).collect();
        let after = Views::of(shell);
        if printed != "?\n" && !printed.is_empty() {
            let numbers: Vec<u64> = words.iter().map(|word| word.parse().unwrap_or(u64::MAX)).collect();
            let answer = printed.split_ascii_whitespace().next().unwrap_or("");
            match words[0] {
                "write" => self.write(&numbers, words.len(), answer, after.as_ref()),
                "read" => self.read(numbers[1], numbers[2], printed, after.as_ref()),
                "show" if printed.contains(" race ") => self.reached.add(format!("shown in {}", place_of(numbers[1]))),
                "end" if answer == "0" => self.end(numbers[1]),
                "end" if answer == "12" => self.conflict(numbers[1]),
                "flush" if answer == "0" => self.flush(printed, shell),
                "mount" => self.mount(answer, shell, after.as_ref()),
                "cut" if answer == "cut" => {
                    self.had_races = self.before.as_ref().is_some_and(|views| views.has_race(0));
                    self.since = if words.len() == 1 {
                        "a cut"
                    } else {
                        "a cut inside a call"
                    };
                }
                "list" => assert!(!printed.contains("race"), "the lister prints no race"),
                _ => {}
            }
        }
        self.before = after;
    }

    fn write(&mut self, numbers: &[u64], words: usize, answer: &str, after: Option<&Views>) {
        let race = if words > 5 { numbers[5] } else { 0 };
        let (stream, block) = (numbers[1], numbers[2]);
        if race > u64::from(RACES) {
            assert!(
                ["1", "3", "4", "5"].contains(&answer),
                "a race above 24 is refused {answer}"
            );
            return self.refused(numbers, answer);
        }
        if answer != "0" {
            return;
        }
        let place = place_of(stream);
        let now = after.and_then(|views| views.race(stream, block));
        assert_eq!(now, Some(race as u8), "the race just written");
        self.reached.add(format!("race {race} written on {place}"));
        self.reached.add_if(words > 5 && race == 0, "race 0 named");
        let Some(before) = self.before.as_ref() else { return };
        let what = match (before.race(stream, block), race) {
            (Some(1..), 0) => "a race, then none",
            (Some(0), 1..) => "none, then a race",
            (Some(old @ 1..), new @ 1..) if u64::from(old) != new => "a race, then another",
            (None, 1..) => "unwritten, then a race",
            _ => return,
        };
        self.reached.add(format!("{what}, on {place}"));
    }

    /// A write with a race above 24: which question comes first?
    fn refused(&mut self, numbers: &[u64], answer: &str) {
        let (stream, block, race) = (numbers[1], numbers[2], numbers[5]);
        if answer != "5" {
            return self.reached.add(format!("{answer} before 5"));
        }
        for (what, least) in [("25", 25), ("26", 26), ("255", 255)] {
            self.reached.add_if(race == least, &format!("race {what} refused"));
        }
        for bits in [5, 8, 16, 32] {
            let is_race_if_cut = (1..=u64::from(RACES)).contains(&(race % (1 << bits)));
            self.reached
                .add_if(is_race_if_cut, &format!("a race if cut to {bits} bits"));
        }
        let Some(before) = self.before.as_ref() else { return };
        let is_block = (1..=u64::from(BLOCKS)).contains(&block);
        let state = usize::try_from(stream)
            .ok()
            .and_then(|stream| before.states[stream].as_ref());
        let is_on_a_list = is_block && state.is_some_and(|state| state.is_on_a_list(block as u8));
        self.reached.add_if(is_block && !is_on_a_list, "5 before 8");
        let is_full = match stream {
            0 => before.record.queue_room() == 0,
            unit => before.record.unit(unit as u8).journal().len() == 15,
        };
        let question = if stream == 0 { 13 } else { 11 };
        self.reached
            .add_if(is_on_a_list && is_full, &format!("5 before {question}"));
    }

    fn read(&mut self, view: u64, block: u64, printed: &str, after: Option<&Views>) {
        if !printed.starts_with("0 ") {
            return assert!(!printed.contains("race"), "a refusal has no race");
        }
        let words: Vec<&str> = printed.split_ascii_whitespace().collect();
        let views = after.expect("the record is sound");
        let race = views.race(view, block).expect("the block is written");
        match words[..] {
            [_, _] => assert_eq!(race, 0),
            [_, _, "race", printed] => assert_eq!(race.to_string(), printed),
            _ => panic!("{printed}"),
        }
        let place = place_of(view);
        self.reached.add_if(race > 0, &format!("race {race} read"));
        self.reached.add_if(race > 0, &format!("read in {place}"));
        self.reached.add_if(words[1] == "-" && race > 0, "zeros with a race");
        for other in [0, 1, 2, 3, 4, 5] {
            let differs = views.race(other, block).is_some_and(|other| other != race);
            let place_of_other = place_of(other);
            self.reached
                .add_if(differs, &format!("read in {place}, another race in {place_of_other}"));
        }
        if self.had_races && race > 0 {
            self.reached.add(format!("read after {}", self.since));
        }
    }

    fn journal_races(&self, unit: u64) -> Vec<u8> {
        let Some(views) = self.before.as_ref() else {
            return Vec::new();
        };
        let journal = views.record.unit(unit as u8).journal();
        let writes = journal.iter().filter(|change| change.is_write());
        writes.map(|&change| race_of(Entry::Member(change))).collect()
    }

    fn end(&mut self, unit: u64) {
        let races = self.journal_races(unit);
        let with_race = races.iter().filter(|&&race| race > 0).count();
        self.reached.add_if(with_race > 0, "an End with a race");
        self.reached.add_if(with_race > 1, "an End with several races");
        self.reached.add_if(
            with_race > 0 && with_race < races.len(),
            "an End with a race and with none",
        );
    }

    fn conflict(&mut self, unit: u64) {
        let has_race = self.journal_races(unit).iter().any(|&race| race > 0);
        self.reached.add_if(has_race, "a conflict with a race");
    }

    fn flush(&mut self, printed: &str, shell: &mut Shell) {
        if !shell.record().head().is_some_and(|head| race_of(head) > 0) {
            return;
        }
        let done = shell.record().done();
        self.reached
            .add_if(done == BLOCK_BYTES + 3, "stopped before the race byte");
        self.reached
            .add_if(done == BLOCK_BYTES + 4, "stopped behind the race byte");
        let card = shell.lent().card;
        let (segments, Ok(log)) = (card.len() / SEGMENT_BYTES, Log::read(card)) else {
            return;
        };
        let lacks_a_byte = log.end.bytes + 3 == ENTRY_BYTES && log.end.slots < SLOTS;
        if !lacks_a_byte {
            return;
        }
        self.reached
            .add_if(log.end.segment + 1 < segments, "the race byte opens the next segment");
        if log.end.segment + 1 == segments {
            assert!(printed.ends_with("full\n"));
            self.reached.add("full for the race byte");
        }
    }

    fn mount(&mut self, answer: &str, shell: &mut Shell, after: Option<&Views>) {
        if answer == "2" {
            let card = shell.lent().card;
            if let Some(what) = race_fault(card) {
                self.reached.add(format!("fault: {what}"));
            }
        } else if answer == "0" {
            let has_races = after.is_some_and(|views| views.has_race(5));
            self.reached.add_if(has_races, "races mounted");
            if self.before.as_ref().is_some_and(|views| views.has_race(0)) {
                self.had_races = true;
                self.since = "a mounting";
            }
            let card = shell.lent().card;
            self.reached.add_if(has_a_dead_race(card), "a dead race mounted");
        }
    }
}

/// The bytes of an entry of a card, from its map to the end of its summary.
fn bytes_at(card: &[u8], fault: Fault) -> &[u8] {
    let bytes = entry_bytes(card, usize::from(fault.segment));
    let mut at = 0;
    for _ in 0..fault.entry {
        at += Entry::decode(&bytes[at..])
            .expect("the entries before a fault are entries")
            .length;
    }
    &bytes[at..]
}

/// What is wrong with the entry at which a card is refused, if it is a race or bit 6.
fn race_fault(card: &[u8]) -> Option<String> {
    let fault = Log::read(card).err()?;
    if matches!(fault.cause, Cause::AfterEmpty | Cause::Run | Cause::Inapplicable) {
        return None;
    }
    let bytes = bytes_at(card, fault);
    match (bytes, fault.cause) {
        ([73 | 201, _, _, 0, ..], Cause::Race) => Some("race byte 0".to_string()),
        (&[73 | 201, block, slot, race, ..], Cause::Range) if race > RACES && block <= BLOCKS && slot < SLOTS => {
            Some(format!("race byte {race}"))
        }
        ([73 | 201, ..], Cause::Bounds) => Some(format!("an entry with a race, {} bytes left", bytes.len())),
        (&[map, ..], Cause::Map) if map & 64 > 0 => Some(format!("map {map}")),
        _ => None,
    }
}

/// Whether the members at the end of a log, which no commit takes, have one with a race.
fn has_a_dead_race(card: &[u8]) -> bool {
    let Ok(log) = Log::read(card) else { return false };
    if log.reading.run.length() == 0 || log.end.count == 0 {
        return false;
    }
    let bytes = entry_bytes(card, log.end.segment);
    let mut at = 0;
    let mut last = None;
    for _ in 0..log.end.count {
        let Ok(decoded) = Entry::decode(&bytes[at..]) else {
            return false;
        };
        at += decoded.length;
        last = Some(decoded.entry);
    }
    last.is_some_and(|entry| race_of(entry) > 0)
}

/// Race bytes and maps at which cards are refused, in scripts and on cards.
fn demanded_faults() -> Vec<String> {
    let races = [0, RACES + 1, 255].map(|race| format!("race byte {race}"));
    let maps = [66, 67, 71, 80, 97, 98, 75, 105, 195, 199, 225, 226, 208].map(|map| format!("map {map}"));
    let left = [1, 2, 3].map(|bytes| format!("an entry with a race, {bytes} bytes left"));
    [&races[..], &maps[..], &left[..]].concat()
}

#[test]
fn scripts_reach_races_on_every_stream_and_view() {
    let mut observer = Observer::default();
    for seed in 0..SEEDS {
        observer.before = None;
        observer.had_races = false;
        generate(seed, None, &mut |line, printed, shell| {
            observer.observe(line, printed, shell);
        });
    }
    let reached = &observer.reached;
    for what in &reached.0 {
        println!("{what}");
    }
    for race in 0..=RACES {
        for stream in ["0", "a unit"] {
            reached.demand(&format!("race {race} written on {stream}"));
        }
        if race > 0 {
            reached.demand(&format!("race {race} read"));
        }
    }
    for place in ["0", "a unit", "5"] {
        reached.demand(&format!("read in {place}"));
        reached.demand(&format!("shown in {place}"));
    }
    for (place, other) in [
        ("0", "a unit"),
        ("a unit", "0"),
        ("a unit", "a unit"),
        ("5", "0"),
        ("0", "5"),
    ] {
        reached.demand(&format!("read in {place}, another race in {other}"));
    }
    for what in [
        "a race, then none",
        "none, then a race",
        "a race, then another",
        "unwritten, then a race",
    ] {
        for stream in ["0", "a unit"] {
            reached.demand(&format!("{what}, on {stream}"));
        }
    }
    for what in [
        "race 0 named",
        "zeros with a race",
        "race 25 refused",
        "race 26 refused",
        "race 255 refused",
        "a race if cut to 5 bits",
        "a race if cut to 8 bits",
        "a race if cut to 16 bits",
        "a race if cut to 32 bits",
        "1 before 5",
        "3 before 5",
        "4 before 5",
        "5 before 8",
        "5 before 11",
        "5 before 13",
        "an End with a race",
        "an End with several races",
        "an End with a race and with none",
        "a conflict with a race",
        "stopped before the race byte",
        "stopped behind the race byte",
        "the race byte opens the next segment",
        "full for the race byte",
        "races mounted",
        "a dead race mounted",
        "read after a mounting",
        "read after a cut",
        "read after a cut inside a call",
    ] {
        reached.demand(what);
    }
    for what in demanded_faults() {
        reached.demand(&format!("fault: {what}"));
    }
}

#[test]
fn cards_reach_races_and_their_faults() {
    for segments in [LISTER_SEGMENTS, SEGMENTS] {
        let mut reached = Reached::default();
        for seed in 0..CARDS {
            let card = card(seed, segments);
            if second::log::segments(&card).is_none_or(|count| count > segments) {
                continue;
            }
            if let Some(what) = race_fault(&card) {
                reached.add(what);
            }
            let Ok(log) = Log::read(&card) else { continue };
            let state = &log.reading.state;
            for block in 1..=BLOCKS {
                if let Some(written) = state.written(block) {
                    reached.add(format!("race {}", written.race));
                }
            }
            reached.add_if(has_a_dead_race(&card), "a dead race");
        }
        for what in &reached.0 {
            println!("{what}");
        }
        for race in 0..=RACES {
            reached.demand(&format!("race {race}"));
        }
        reached.demand("a dead race");
        for what in demanded_faults() {
            reached.demand(&what);
        }
    }
}
