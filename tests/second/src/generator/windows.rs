//! Windows: units that begin for one window or for several, and their conflicts.

use super::Generator;
use crate::limits::{UNITS, WINDOWS};

/// Windows that units share more often than others.
const SHARED: &[u64] = &[1, 2, 15, 16];

impl Generator<'_> {
    /// The window of a Begin or of a look-up as the line names it: most of the time one that there is, now and then none.
    pub(super) fn window(&mut self) -> String {
        if self.is_wrong() {
            return format!(" {}", self.wrong_window());
        }
        match self.random.below(100) {
            0..=11 => String::new(),
            12..=93 => format!(" {}", self.right_window()),
            _ => format!(" {}", self.wrong_window()),
        }
    }

    /// A window that there is not: beside those that there are, one of them with a higher bit set, or any strange number.
    fn wrong_window(&mut self) -> u64 {
        let bit = self.random.pick(&[8, 16, 32, 63]);
        match self.random.below(8) {
            0..=1 => 0,
            2..=3 => u64::from(WINDOWS) + 1,
            4..=6 => self.right_window() + (1 << bit),
            _ => self.strange_number(),
        }
    }

    /// A window from 1 to 16: that of an open unit, one that has had conflicts, the busiest, or any.
    pub(super) fn right_window(&mut self) -> u64 {
        let of_units = self.windows_of_units();
        let of_conflicts = self.windows_with_conflicts();
        let any = self.random.between(1, u64::from(WINDOWS));
        let record = self.shell.record();
        let busiest = (1..=WINDOWS).max_by_key(|&window| record.conflicts_of(window));
        match self.random.below(12) {
            0..=2 => self.random.pick_if_any(&of_units).unwrap_or(any),
            3..=4 => self.random.pick_if_any(&of_conflicts).unwrap_or(any),
            5..=6 => busiest.map_or(any, u64::from),
            7..=8 => self.random.pick(SHARED),
            _ => any,
        }
    }

    /// The windows that open units' Begins named.
    fn windows_of_units(&self) -> Vec<u64> {
        let record = self.shell.record();
        let open = (1..=UNITS).map(|unit| record.unit(unit)).filter(|unit| unit.is_open);
        open.map(|unit| u64::from(unit.window)).collect()
    }

    /// The windows whose counts are not 0.
    fn windows_with_conflicts(&self) -> Vec<u64> {
        let record = self.shell.record();
        let raised = (1..=WINDOWS).filter(|&window| record.conflicts_of(window) > 0);
        raised.map(u64::from).collect()
    }

    /// Begin of `unit`, which is closed, for some window.
    pub(super) fn begin_unit(&mut self, unit: u64) {
        if self.random.chance(10) {
            self.run(format_args!("begin {unit}"));
        } else {
            let window = self.right_window();
            self.run(format_args!("begin {unit} {window}"));
        }
    }

    /// The count of some window.
    pub(super) fn conflicts(&mut self) {
        let window = self.window();
        self.run(format_args!("conflicts{window}"));
    }

    /// The counts of these windows.
    fn counts_of(&mut self, windows: &[u64]) {
        for &window in windows {
            if window == 1 && self.random.chance(50) {
                self.run(format_args!("conflicts"));
            } else {
                self.run(format_args!("conflicts {window}"));
            }
        }
    }

    /// What comes next, and the counts of windows that have had conflicts before it.
    pub(super) fn with_counts_after(&mut self, next: impl FnOnce(&mut Self)) {
        let mut windows = self.windows_with_conflicts();
        next(self);
        if !windows.is_empty() {
            windows.push(self.right_window());
            self.counts_of(&windows);
        }
    }

    /// Units begin for several windows, some for the same; what they change goes, so that their Ends are refused 12, or some
    /// are; the counts after each End, and after what comes then.
    pub(super) fn windows(&mut self) {
        let Some(list) = self.run(format_args!("newlist 0")).number.filter(|&list| list > 0) else {
            self.run(format_args!("flush 65535"));
            return self.delete_list(0);
        };
        for _ in 0..self.random.between(1, u64::from(UNITS)) {
            let Some(unit) = self.random.pick_if_any(&self.units(false)) else {
                break;
            };
            self.begin_unit(unit);
            if self.random.chance(85) {
                self.run(format_args!("dellist {unit} {list}"));
            }
        }
        if self.random.chance(75) {
            self.run(format_args!("dellist 0 {list}"));
        }
        self.other_begins();
        if self.random.chance(20) {
            self.fill_queue();
        }
        self.end_units();
        match self.random.below(24) {
            0..=1 => self.mount(),
            2 => self.format(),
            3 => self.with_counts_after(Self::cut),
            4 => self.with_counts_after(Self::cut_flush),
            5 => self.with_counts_after(Self::cut_format),
            6 => self.counts_of(&(0..=u64::from(WINDOWS) + 1).collect::<Vec<_>>()),
            7 => self.wrong_windows_on_parts(),
            _ => {}
        }
    }

    /// Windows that there are not, while question 1 is answered no.
    fn wrong_windows_on_parts(&mut self) {
        let buffer = self.random.pick(&["card", "queue", "journal"]);
        self.run(format_args!("lend {buffer} 1"));
        let unit = self.random.between(0, u64::from(UNITS) + 1);
        let windows = [self.wrong_window(), self.wrong_window()];
        self.run(format_args!("begin {unit} {}", windows[0]));
        self.run(format_args!("conflicts {}", windows[1]));
        self.run(format_args!("lend all"));
    }

    /// Begins behind those of the units that are about to end: of other units, of open ones, for windows that are none.
    fn other_begins(&mut self) {
        for _ in 0..self.random.below(3) {
            let closed = self.random.pick_if_any(&self.units(false));
            let open = self.random.pick_if_any(&self.units(true));
            match (self.random.below(5), closed, open) {
                (0..=1, Some(unit), _) => self.begin_unit(unit),
                (2, _, Some(unit)) => self.begin_unit(unit),
                (3, _, Some(unit)) => {
                    let window = self.wrong_window();
                    self.run(format_args!("begin {unit} {window}"));
                }
                _ => self.begin(),
            }
        }
    }

    /// End of `unit`; the counts of the windows that units had before it, and of another.
    pub(super) fn end_unit(&mut self, unit: u64) -> Option<u64> {
        let mut windows = self.windows_of_units();
        windows.push(self.right_window());
        windows.sort_unstable();
        windows.dedup();
        let answer = self.run(format_args!("end {unit}")).answer;
        self.counts_of(&windows);
        answer
    }

    /// Open units end, in any order; the counts after each.
    fn end_units(&mut self) {
        let mut open = self.units(true);
        while !open.is_empty() {
            let unit = open.swap_remove(self.random.below(open.len() as u64) as usize);
            let answer = self.end_unit(unit);
            if self.random.chance(20) {
                self.make_room(answer);
                self.begin();
            }
            if self.random.chance(20) {
                break;
            }
        }
    }
}
