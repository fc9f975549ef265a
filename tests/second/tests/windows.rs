//! Document 02, E7, over whole scripts: "Each window has its own count, which stops at 65,535 and is 0 after mounting [..]. An
//! End refused 12 raises the count of the window its unit's Begin named and no other; other refusals raise none."
//!
//! The counts are kept beside random scripts from their lines and answers alone: which Begin named which window, which Ends
//! were refused 12, what was mounted or formatted. They are compared with the record after each line.

use std::collections::BTreeSet;

use second::generator::generate;
use second::shell::Shell;

const SEEDS: u64 = 150;
const WINDOWS: usize = 16;

/// What the lines of a script so far say of windows.
#[derive(Default)]
struct Counts {
    /// After an accepted mounting or formatting, up to a cut or another card.
    is_running: bool,
    /// Ends refused 12 since then, by window.
    refused: [u64; WINDOWS + 1],
    /// The windows that the units' Begins named, of open units.
    named: [Option<usize>; 5],
    /// The unit that began last.
    begun_last: usize,
    /// Counts that were not 0 when a mounting, a formatting or a cut came, and that nobody has asked for since.
    were_raised: BTreeSet<usize>,
    /// What has come between then and now.
    since: &'static str,
    reached: BTreeSet<String>,
}

/// A number as wide as it comes.
fn number(word: &str) -> u64 {
    word.parse().unwrap_or(u64::MAX)
}

/// The window that a line names, 1 if it names none.
fn window_of(word: Option<&&str>) -> u64 {
    word.map_or(1, |word| number(word))
}

impl Counts {
    fn reach(&mut self, what: impl Into<String>) {
        self.reached.insert(what.into());
    }

    fn reach_if(&mut self, is_reached: bool, what: &str) {
        if is_reached {
            self.reach(what);
        }
    }

    fn observe(&mut self, line: &[u8], printed: &str, shell: &mut Shell) {
        let line = String::from_utf8_lossy(line).to_string();
        let words: Vec<&str> = line.split(' ').filter(|word| !word.is_empty()).collect();
        if printed == "?\n" || printed.is_empty() {
            return self.compare(&line, shell);
        }
        let numbers: Vec<u64> = printed.split_ascii_whitespace().map(number).collect();
        match (words[0], numbers[0]) {
            ("begin", answer) => self.begin(number(words[1]), window_of(words.get(2)), answer, words.len()),
            ("end", answer) => self.end(number(words[1]), answer),
            ("conflicts", answer) => self.look_up(window_of(words.get(1)), answer, numbers[1], words.len()),
            ("mount", 0) => self.reset("a mounting"),
            ("format", 0) => self.reset("a formatting"),
            ("cut", _) if printed.starts_with("cut") => {
                self.note_raised(if words.len() == 1 {
                    "a cut"
                } else {
                    "a cut inside a call"
                });
                self.is_running = false;
            }
            ("card", _) => self.is_running = false,
            _ => {}
        }
        self.compare(&line, shell);
    }

    /// After each line the record's counts are these.
    fn compare(&self, line: &str, shell: &Shell) {
        if self.is_running {
            for window in 1..=WINDOWS {
                let count = u64::from(shell.record().conflicts_of(window as u8));
                assert_eq!(count, self.refused[window].min(65_535), "window {window} after {line}");
            }
        }
    }

    fn note_raised(&mut self, since: &'static str) {
        if self.is_running {
            self.were_raised = (1..=WINDOWS).filter(|&window| self.refused[window] > 0).collect();
            self.since = since;
        }
    }

    fn reset(&mut self, since: &'static str) {
        self.note_raised(since);
        self.is_running = true;
        self.refused = [0; WINDOWS + 1];
        self.named = [None; 5];
    }

    fn begin(&mut self, unit: u64, window: u64, answer: u64, words: usize) {
        let is_window = (1..=WINDOWS as u64).contains(&window);
        let is_unit = (1..=4).contains(&unit);
        match answer {
            0 => {
                assert!(is_window && is_unit && self.named[unit as usize].is_none());
                let window = window as usize;
                self.reach_if(words == 2, "begin without a window");
                self.reach(format!("a unit of window {window}"));
                let others = self.named.iter().flatten();
                let shared = others.clone().filter(|&&other| other == window).count();
                let is_among_others = others.clone().any(|&other| other != window);
                self.reach_if(shared == 1, "two units of a window");
                self.reach_if(shared == 3, "four units of a window");
                self.reach_if(is_among_others, "units of two windows");
                self.named[unit as usize] = Some(window);
                self.begun_last = unit as usize;
            }
            1 | 3 => self.reach_if(!is_window, &format!("begin: {answer} before 5")),
            4 => self.reach_if(!is_window, "begin: 4 before 5"),
            5 => {
                assert!(!is_window && is_unit);
                self.reach_if(self.named[unit as usize].is_some(), "begin: 5 before 6");
                self.reach_strange("begin", window);
            }
            6 => {
                assert!(is_window && self.named[unit as usize].is_some());
                let is_other = self.named[unit as usize] != Some(window as usize);
                self.reach_if(is_other, "refused 6 with another window");
            }
            _ => panic!("begin is refused {answer}"),
        }
    }

    fn reach_strange(&mut self, call: &str, window: u64) {
        self.reach_if(window == 0, &format!("{call}: window 0"));
        self.reach_if(window == 17, &format!("{call}: window 17"));
        for bits in [8, 16, 32] {
            let is_window_if_cut = (1..=16).contains(&(window % (1 << bits)));
            self.reach_if(is_window_if_cut, &format!("{call}: a window if cut to {bits} bits"));
        }
    }

    fn end(&mut self, unit: u64, answer: u64) {
        let Some(window) = self.named.get(unit as usize).copied().flatten() else {
            return;
        };
        let others = (1..=4).filter(|&other| other as u64 != unit);
        let other_windows: Vec<usize> = others.filter_map(|other| self.named[other]).collect();
        let is_shared = other_windows.contains(&window);
        match answer {
            0 => self.reach_if(is_shared, "an End accepted of a shared window"),
            12 => {
                let last = self.named[self.begun_last];
                self.reach_if(
                    last.is_some_and(|last| last != window),
                    "refused 12, begun before a unit of another window",
                );
                self.reach_if(is_shared, "refused 12, another unit of the window open");
                self.reach_if(
                    other_windows.len() == 3 && !is_shared,
                    "refused 12 among four units, none other of the window",
                );
                self.reach(format!("refused 12 of window {window}"));
                self.reach_if(self.refused[window] == 2, "a third conflict of a window");
                self.refused[window] += 1;
            }
            13 => {
                self.reach("refused 13 of a window");
                self.reach_if(self.refused[window] > 0, "refused 13 of a window with conflicts");
                return;
            }
            _ => return,
        }
        self.named[unit as usize] = None;
    }

    fn look_up(&mut self, window: u64, answer: u64, count: u64, words: usize) {
        let is_window = (1..=WINDOWS as u64).contains(&window);
        match answer {
            0 => {
                let window = window as usize;
                assert!(is_window && self.is_running);
                assert_eq!(count, self.refused[window].min(65_535), "the count of window {window}");
                self.reach_if(words == 1 && count > 0, "conflicts without a window");
                self.reach_if(count > 0, &format!("a count of window {window} above 0"));
                self.reach_if(count == 0, &format!("a count of window {window} that is 0"));
                let is_alone = count == 0 && self.refused.iter().any(|&count| count > 0);
                self.reach_if(is_alone, "a count that is 0 while another is not");
                if self.were_raised.remove(&window) {
                    self.reach(format!("0 after {}", self.since));
                    self.reach_if(
                        self.were_raised.is_empty(),
                        &format!("every count 0 after {}", self.since),
                    );
                }
            }
            1 | 3 => {
                assert_eq!(count, 0);
                self.reach_if(!is_window, &format!("conflicts: {answer} before 5"));
                let was_raised = self.were_raised.contains(&(window as usize));
                self.reach_if(answer == 3 && was_raised, "refused 3 after a cut");
            }
            5 => {
                assert_eq!(count, 0);
                assert!(!is_window);
                self.reach_strange("conflicts", window);
            }
            _ => panic!("conflicts is refused {answer}"),
        }
    }
}

#[test]
fn counts_are_the_ends_refused_12_of_each_window() {
    let mut reached = BTreeSet::new();
    for seed in 0..SEEDS {
        let mut counts = Counts::default();
        generate(seed, None, &mut |line, printed, shell| {
            counts.observe(line, printed, shell);
        });
        reached.append(&mut counts.reached);
    }
    let demanded = [
        "begin without a window",
        "two units of a window",
        "four units of a window",
        "units of two windows",
        "begin: 1 before 5",
        "begin: 3 before 5",
        "begin: 4 before 5",
        "begin: 5 before 6",
        "refused 6 with another window",
        "an End accepted of a shared window",
        "refused 12, begun before a unit of another window",
        "refused 12, another unit of the window open",
        "refused 12 among four units, none other of the window",
        "a third conflict of a window",
        "refused 13 of a window",
        "refused 13 of a window with conflicts",
        "conflicts without a window",
        "conflicts: 1 before 5",
        "conflicts: 3 before 5",
        "a count that is 0 while another is not",
        "0 after a mounting",
        "every count 0 after a mounting",
        "0 after a formatting",
        "every count 0 after a formatting",
        "0 after a cut",
        "0 after a cut inside a call",
        "refused 3 after a cut",
    ];
    for what in demanded {
        assert!(reached.contains(what), "not reached: {what}");
    }
    for call in ["begin", "conflicts"] {
        for window in [
            "window 0",
            "window 17",
            "a window if cut to 8 bits",
            "a window if cut to 16 bits",
            "a window if cut to 32 bits",
        ] {
            let what = format!("{call}: {window}");
            assert!(reached.contains(&what), "not reached: {what}");
        }
    }
    for window in 1..=WINDOWS {
        for what in [
            format!("a unit of window {window}"),
            format!("refused 12 of window {window}"),
            format!("a count of window {window} above 0"),
            format!("a count of window {window} that is 0"),
        ] {
            assert!(reached.contains(&what), "not reached: {what}");
        }
    }
}
