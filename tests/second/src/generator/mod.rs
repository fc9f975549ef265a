//! Random scripts for the shell.
//!
//! A script follows from its seed. While it is written, each line is run on a shell of this library, so that the next
//! line can name numbers that exist, allowances that end an entry, and bytes that an entry stands in. What the lines
//! print is no part of the script.

mod arguments;
mod calls;
mod cards;
mod damage;
mod lists;
mod logs;
mod numbers;
mod pages;
mod power;
mod races;
mod two_units;
mod windows;

pub use cards::card;
pub use two_units::{two_units, TwoUnits};

use std::fmt;

use crate::limits::{SEGMENTS, SEGMENT_BYTES, UNITS};
use crate::random::Random;
use crate::shell::Shell;
use crate::state::State;

/// What happens next in a script.
#[derive(Clone, Copy, PartialEq, Eq, Debug)]
enum Action {
    /// A change on some stream.
    Change,
    /// A look-up.
    LookUp,
    /// A call with several arguments that are wrong: which question comes first?
    WrongCall,
    /// Everything in a view, or what the lister says.
    Show,
    /// Units begin and end.
    Begin,
    End,
    /// Streams work until something is full.
    FillLists,
    FillBlocks,
    FillJournal,
    FillQueue,
    /// A row of units that change nothing: two bytes each.
    EmptyUnits,
    /// A unit whose entries come not to apply, or to apply again.
    Conflict,
    MadeAgain,
    /// A block that is read before it is written.
    Unwritten,
    /// Lists of many lengths, taken in any order, and their pages.
    Pages,
    /// The longest page that there is.
    LongestPage,
    /// Units of several windows, and their conflicts.
    Windows,
    /// Writes for races and for none.
    Races,
    /// Lists taken in units.
    Lists,
    /// Numbers freed and given again.
    Numbers,
    /// Stores, cuts, and what comes after them.
    Flush,
    CutFlush,
    Cut,
    CutFormat,
    Mount,
    Format,
    /// Another card, formatted or with a log stored byte by byte.
    NewCard,
    StoredLog,
    FullLog,
    FaultyLog,
    /// Someone else writes on the card.
    Damage,
    /// Parts are lent.
    Lend,
    /// Lines that are no commands.
    Nonsense,
}

/// What a script is about: how often each action comes, how large its cards are, how many lines it has.
struct Profile {
    actions: &'static [(Action, u64)],
    segments: (u64, u64),
    lines: (u64, u64),
}

/// Actions that every profile has, so that none is without cuts, look-ups and refusals.
const COMMON: &[(Action, u64)] = &[
    (Action::Change, 30),
    (Action::LookUp, 12),
    (Action::WrongCall, 4),
    (Action::Show, 3),
    (Action::Begin, 6),
    (Action::End, 6),
    (Action::Flush, 8),
    (Action::Unwritten, 2),
    (Action::Pages, 1),
    (Action::Windows, 1),
    (Action::Races, 1),
    (Action::Lists, 1),
    (Action::Numbers, 1),
    (Action::CutFlush, 1),
    (Action::Cut, 1),
    (Action::Mount, 1),
    (Action::Nonsense, 1),
];

/// The profiles; seed s has profile s modulo their number.
const PROFILES: &[Profile] = &[
    // Something of everything.
    Profile {
        actions: &[
            (Action::FillLists, 1),
            (Action::FillBlocks, 1),
            (Action::FillJournal, 1),
            (Action::FillQueue, 1),
            (Action::Conflict, 2),
            (Action::MadeAgain, 1),
            (Action::CutFormat, 1),
            (Action::Format, 1),
            (Action::NewCard, 1),
            (Action::Damage, 3),
            (Action::Lend, 3),
            (Action::Nonsense, 3),
        ],
        segments: (1, 6),
        lines: (200, 600),
    },
    // Four units at once, and their conflicts.
    Profile {
        actions: &[
            (Action::Change, 40),
            (Action::LookUp, 30),
            (Action::Show, 4),
            (Action::Begin, 25),
            (Action::End, 15),
            (Action::FillJournal, 4),
            (Action::Conflict, 15),
            (Action::MadeAgain, 2),
            (Action::Unwritten, 12),
        ],
        segments: (1, 8),
        lines: (300, 900),
    },
    // Queues that are full, flushed a little at a time.
    Profile {
        actions: &[
            (Action::FillQueue, 12),
            (Action::FillJournal, 8),
            (Action::Begin, 10),
            (Action::End, 15),
            (Action::Conflict, 3),
            (Action::Flush, 30),
        ],
        segments: (1, 8),
        lines: (300, 900),
    },
    // Segments that are full.
    Profile {
        actions: &[
            (Action::Change, 60),
            (Action::FillQueue, 10),
            (Action::FillJournal, 5),
            (Action::EmptyUnits, 2),
            (Action::Flush, 25),
            (Action::Mount, 3),
            (Action::Show, 4),
        ],
        segments: (1, 3),
        lines: (400, 1_200),
    },
    // Power cuts at all kinds of bytes.
    Profile {
        actions: &[
            (Action::Change, 20),
            (Action::Begin, 20),
            (Action::End, 25),
            (Action::FillJournal, 3),
            (Action::Flush, 10),
            (Action::CutFlush, 25),
            (Action::Cut, 3),
            (Action::CutFormat, 1),
            (Action::Unwritten, 6),
            (Action::Show, 8),
        ],
        segments: (1, 4),
        lines: (300, 900),
    },
    // Damaged cards.
    Profile {
        actions: &[
            (Action::Damage, 40),
            (Action::Flush, 10),
            (Action::Mount, 3),
            (Action::Show, 3),
        ],
        segments: (1, 5),
        lines: (300, 700),
    },
    // Parts of card and buffers.
    Profile {
        actions: &[
            (Action::Lend, 30),
            (Action::Flush, 15),
            (Action::Damage, 2),
            (Action::FillQueue, 2),
        ],
        segments: (2, 6),
        lines: (300, 700),
    },
    // Logs that no flush would leave.
    Profile {
        actions: &[
            (Action::StoredLog, 8),
            (Action::FullLog, 4),
            (Action::Show, 4),
            (Action::Flush, 8),
            (Action::Damage, 2),
            (Action::Begin, 6),
            (Action::End, 6),
        ],
        segments: (1, 12),
        lines: (1_500, 4_000),
    },
    // Logs with a fault.
    Profile {
        actions: &[(Action::FaultyLog, 100), (Action::Damage, 10)],
        segments: (1, 4),
        lines: (1_500, 4_000),
    },
    // Numbers that run out.
    Profile {
        actions: &[
            (Action::FillLists, 6),
            (Action::FillBlocks, 6),
            (Action::MadeAgain, 12),
            (Action::Conflict, 6),
            (Action::Flush, 20),
        ],
        segments: (4, 16),
        lines: (500, 1_200),
    },
    // Large cards.
    Profile {
        actions: &[
            (Action::FillQueue, 10),
            (Action::FillJournal, 5),
            (Action::End, 10),
            (Action::Flush, 40),
            (Action::CutFlush, 3),
            (Action::StoredLog, 3),
        ],
        segments: (15, 64),
        lines: (800, 2_500),
    },
    // Pages.
    Profile {
        actions: &[
            (Action::Pages, 25),
            (Action::LongestPage, 1),
            (Action::FillLists, 2),
            (Action::FillBlocks, 1),
            (Action::End, 8),
            (Action::Flush, 15),
            (Action::CutFlush, 4),
            (Action::Mount, 4),
        ],
        segments: (1, 9),
        lines: (400, 1_200),
    },
    // Windows.
    Profile {
        actions: &[
            (Action::Windows, 40),
            (Action::Conflict, 10),
            (Action::FillQueue, 2),
            (Action::Begin, 6),
            (Action::End, 4),
            (Action::Flush, 15),
            (Action::CutFlush, 2),
            (Action::Mount, 2),
            (Action::Format, 1),
            (Action::Lend, 1),
            (Action::Damage, 1),
        ],
        segments: (1, 9),
        lines: (400, 1_200),
    },
    // Races.
    Profile {
        actions: &[
            (Action::Races, 30),
            (Action::FullLog, 2),
            (Action::Conflict, 3),
            (Action::FillJournal, 3),
            (Action::FillQueue, 3),
            (Action::End, 8),
            (Action::Show, 6),
            (Action::Flush, 15),
            (Action::CutFlush, 6),
            (Action::Mount, 3),
            (Action::Damage, 4),
        ],
        segments: (1, 9),
        lines: (400, 1_200),
    },
    // Lists taken in units.
    Profile {
        actions: &[
            (Action::Lists, 40),
            (Action::FillLists, 3),
            (Action::MadeAgain, 1),
            (Action::Conflict, 3),
            (Action::FillJournal, 2),
            (Action::End, 8),
            (Action::Show, 4),
            (Action::Flush, 12),
            (Action::CutFlush, 4),
            (Action::Mount, 3),
            (Action::Lend, 2),
            (Action::Damage, 2),
        ],
        segments: (1, 9),
        lines: (400, 1_200),
    },
    // Numbers that rest: every one comes several times.
    Profile {
        actions: &[
            (Action::Numbers, 60),
            (Action::Conflict, 3),
            (Action::Lists, 3),
            (Action::FillBlocks, 2),
            (Action::End, 6),
            (Action::Flush, 8),
            (Action::CutFlush, 3),
            (Action::Mount, 3),
            (Action::Format, 1),
        ],
        segments: (3, 24),
        lines: (1_500, 4_000),
    },
    // Formattings and remounts.
    Profile {
        actions: &[
            (Action::Conflict, 4),
            (Action::CutFormat, 12),
            (Action::Format, 6),
            (Action::Mount, 12),
            (Action::NewCard, 6),
            (Action::FillQueue, 4),
            (Action::Flush, 20),
        ],
        segments: (1, 9),
        lines: (200, 600),
    },
    // Lines that are no commands, numbers that nobody has.
    Profile {
        actions: &[
            (Action::Nonsense, 60),
            (Action::LookUp, 20),
            (Action::Lend, 3),
            (Action::Damage, 3),
        ],
        segments: (1, 3),
        lines: (200, 500),
    },
];

/// Where the lines of a script go: the line, what it prints, and the shell after it.
type Observer<'a> = dyn FnMut(&[u8], &str, &mut Shell) + 'a;

/// A script being written.
struct Generator<'a> {
    random: Random,
    profile: &'static Profile,
    shell: Shell,
    printed: String,
    lines_left: usize,
    /// How many arguments in a hundred are wrong on purpose.
    wrong_arguments: u64,
    /// What someone else has written on the card: where, and the byte that stood there.
    damage: Vec<(usize, u8)>,
    observer: &'a mut Observer<'a>,
}

/// Writes the script of `seed`, with so many lines or as many as its profile says, to `observer`.
pub fn generate<'a>(seed: u64, lines: Option<usize>, observer: &'a mut Observer<'a>) {
    let profile = &PROFILES[(seed % PROFILES.len() as u64) as usize];
    let mut generator = Generator::new(seed, profile, observer);
    if let Some(lines) = lines {
        generator.lines_left = lines;
    }
    generator.write_script();
}

/// A script in which the conflict count of window 16 stops at 65,535, and those of its neighbours go on. Four units at a
/// time put a block after the only one of list 1; then someone else puts that one on list 2 on the card, so that none of them
/// applies, and puts it back. So the log doesn't grow, and no number comes to be free or in use behind the record's back.
pub fn conflicts_script() -> String {
    const ROUNDS: usize = 65_580 / 4;
    let mut script = "card 4096 0\nformat\nnewlist 0\nnewlist 0\nnewblock 0 1 0\nflush 65535\n".to_string();
    for round in 0..ROUNDS {
        let looks = round % 1_000 == 0 || round + 5 > ROUNDS;
        let others = if looks { (15, 1) } else { (16, 16) };
        script += &format!("begin 1 {}\nbegin 2 16\nbegin 3 16\nbegin 4 {}\n", others.0, others.1);
        script += "newblock 1 1 1\nnewblock 2 1 1\nnewblock 3 1 1\nnewblock 4 1 1\n";
        script += "poke 3591 2\n";
        script += "end 1\nend 2\nend 3\nend 4\n";
        script += "poke 3591 1\n";
        if looks {
            script += "conflicts 16\nconflicts 15\nconflicts\n";
        }
    }
    script + "mount\nconflicts 16\nconflicts 15\nconflicts\n"
}

impl<'a> Generator<'a> {
    /// A script of `seed` and of that profile, without a line yet.
    fn new(seed: u64, profile: &'static Profile, observer: &'a mut Observer<'a>) -> Generator<'a> {
        let mut random = Random::new(seed);
        let (least, most) = profile.lines;
        let lines_left = random.between(least, most) as usize;
        Generator {
            random,
            profile,
            shell: Shell::new(Vec::new()),
            printed: String::new(),
            lines_left,
            wrong_arguments: 0,
            damage: Vec::new(),
            observer,
        }
    }
}

impl Generator<'_> {
    fn write_script(&mut self) {
        if self.random.chance(10) {
            self.any_call();
        }
        let has_stored_logs = self
            .profile
            .actions
            .iter()
            .any(|&(action, _)| action == Action::StoredLog);
        if has_stored_logs && self.random.chance(70) {
            self.stored_log();
        } else {
            self.new_card();
        }
        while self.lines_left > 0 {
            if self.shell.versions().is_none() {
                self.recover();
            } else {
                let total_of_profile: u64 = self.profile.actions.iter().map(|&(_, weight)| weight).sum();
                let total_of_common: u64 = COMMON.iter().map(|&(_, weight)| weight).sum();
                let is_common = self.random.below(total_of_profile + total_of_common) < total_of_common;
                let actions = if is_common { COMMON } else { self.profile.actions };
                let action = self.random.pick_weighted(actions);
                self.act(action);
            }
        }
    }

    fn act(&mut self, action: Action) {
        match action {
            Action::Change => self.change(),
            Action::LookUp => self.look_up(),
            Action::WrongCall => self.wrong_call(),
            Action::Show => self.show(),
            Action::Begin => self.begin(),
            Action::End => self.end(),
            Action::FillLists => self.fill_lists(),
            Action::FillBlocks => self.fill_blocks(),
            Action::FillJournal => self.fill_journal(),
            Action::FillQueue => self.fill_queue(),
            Action::EmptyUnits => self.empty_units(),
            Action::Conflict => self.conflict(),
            Action::MadeAgain => self.made_again(),
            Action::Unwritten => self.unwritten(),
            Action::Pages => self.pages(),
            Action::LongestPage => self.longest_page(),
            Action::Windows => self.windows(),
            Action::Races => self.races(),
            Action::Lists => self.lists(),
            Action::Numbers => self.numbers(),
            Action::Flush => self.flush(),
            Action::CutFlush => self.cut_flush(),
            Action::Cut => self.cut(),
            Action::CutFormat => self.cut_format(),
            Action::Mount => self.mount(),
            Action::Format => self.format(),
            Action::NewCard => self.new_card(),
            Action::StoredLog => self.stored_log(),
            Action::FullLog if self.random.chance(30) => self.full_log_for_a_race(),
            Action::FullLog => self.full_log(),
            Action::FaultyLog => self.faulty_log(),
            Action::Damage => self.damage(),
            Action::Lend => self.lend(),
            Action::Nonsense => self.nonsense(),
        }
    }

    /// Any single call, for times at which it is likely to be refused.
    fn any_call(&mut self) {
        let stream = self.stream();
        match self.random.below(18) {
            0 => self.new_list(stream),
            1..=2 => self.new_block(stream),
            3..=4 => self.write(stream),
            5 => self.delete_block(stream),
            6 => self.delete_list(stream),
            7..=10 => self.look_up(),
            11 => self.begin(),
            12 => self.end(),
            13 => self.flush(),
            14 => self.cut_flush(),
            15 => self.page(),
            16 => self.conflicts(),
            _ => self.show(),
        }
    }

    /// A call of which about half of the arguments are wrong.
    fn wrong_call(&mut self) {
        self.wrong_arguments = 50;
        self.any_call();
        self.wrong_arguments = 0;
    }

    /// A card of the profile's size, formatted.
    fn new_card(&mut self) {
        let segments = self.segments_of_profile();
        self.put_card(segments * SEGMENT_BYTES);
        self.run(format_args!("format"));
    }

    /// How many segments a new card has: any number of the profile's, its least and its greatest more often.
    fn segments_of_profile(&mut self) -> usize {
        let (least, most) = self.profile.segments;
        let any = self.random.between(least, most);
        self.random.pick(&[least, most, any, any, any]) as usize
    }

    /// Another card is put in; all its bytes are the same.
    fn put_card(&mut self, length: usize) {
        let byte = if self.random.chance(50) { 0 } else { self.random.byte() };
        self.damage.clear();
        self.run(format_args!("card {length} {byte}"));
    }

    /// Goes on where calls are refused 1 or 3: mounts, formats, lends everything again.
    fn recover(&mut self) {
        match self.random.below(10) {
            0..=1 => return self.any_call(),
            2 => return self.wrong_call(),
            _ => {}
        }
        if self.random.chance(60) {
            self.run(format_args!("lend all"));
        }
        if self.repairs() {
            return;
        }
        let answer = self.run(format_args!("mount")).answer;
        if answer == Some(0) {
            return;
        }
        match self.random.below(10) {
            0..=5 => self.format(),
            6..=7 => self.run(format_args!("list")).ignore(),
            8 => self.cut_format(),
            _ => self.new_card(),
        }
    }

    // ---- Lines -------------------------------------------------------------------------------------------------

    /// Writes a line.
    fn run(&mut self, line: fmt::Arguments<'_>) -> Outcome {
        self.run_bytes(line.to_string().as_bytes())
    }

    /// Writes a line of any bytes, if the script has room for it.
    fn run_bytes(&mut self, line: &[u8]) -> Outcome {
        if self.lines_left == 0 {
            return Outcome {
                answer: None,
                number: None,
            };
        }
        self.lines_left -= 1;
        self.printed.clear();
        self.shell.run_line(line, &mut self.printed);
        (self.observer)(line, &self.printed, &mut self.shell);
        let mut numbers = self.printed.split_ascii_whitespace().map(|word| word.parse().ok());
        Outcome {
            answer: numbers.next().flatten(),
            number: numbers.next().flatten(),
        }
    }

    // ---- What the shell knows ----------------------------------------------------------------------------------

    /// The state in a view, if the view can be had.
    fn state(&mut self, view: u64) -> Option<State> {
        let lent = self.shell.lent();
        let versions = lent.versions().ok()?;
        lent.view(&versions, view).ok()
    }

    /// Units that are open, or those that are closed.
    fn units(&self, is_open: bool) -> Vec<u64> {
        let record = self.shell.record();
        (1..=UNITS)
            .filter(|&unit| record.unit(unit).is_open == is_open)
            .map(u64::from)
            .collect()
    }

    /// Segments of the part of the card that is lent.
    fn segments(&self) -> usize {
        (self.shell.lengths_lent()[0] / SEGMENT_BYTES).min(SEGMENTS)
    }
}

/// The first two numbers that a line printed.
#[derive(Clone, Copy, PartialEq, Eq, Debug)]
struct Outcome {
    answer: Option<u64>,
    number: Option<u64>,
}

impl Outcome {
    fn is_accepted(self) -> bool {
        self.answer == Some(0)
    }

    /// For lines whose outcome decides nothing.
    fn ignore(self) {}
}
