//! How far a night has come, told on standard error: a bar on a terminal, lines elsewhere where they are asked for.

use crate::output;
use indicatif::{ProgressBar, ProgressStyle};
use std::io::{self, IsTerminal};

const TENTHS: usize = 10;

pub struct Progress {
    bar: ProgressBar,
    lines: bool,
    accounts: usize,
    answered: usize,
}

impl Progress {
    pub fn of(accounts: usize, asked: bool) -> Progress {
        let bar = ProgressBar::new(accounts as u64);
        if let Ok(style) = ProgressStyle::with_template("{wide_bar} {pos} of {len} accounts, {eta} left") {
            bar.set_style(style);
        }
        Progress { bar, lines: asked && !io::stderr().is_terminal(), accounts, answered: 0 }
    }

    /// So many more accounts are answered.
    pub fn add(&mut self, accounts: usize) {
        let tenth = |answered: usize| answered * TENTHS / self.accounts.max(1);
        let passed = tenth(self.answered) < tenth(self.answered + accounts);
        self.answered += accounts;
        self.bar.inc(accounts as u64);
        if self.lines && passed {
            output::tell(&format!("felgotany: {} of {} accounts\n", self.answered, self.accounts));
        }
    }

    /// Does something while no bar is in the way.
    pub fn aside<T>(&self, act: impl FnOnce() -> T) -> T {
        self.bar.suspend(act)
    }

    pub fn end(&self) {
        self.bar.finish_and_clear();
    }
}
