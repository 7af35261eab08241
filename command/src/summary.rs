//! What a night has come to.

use crate::failure::Status;
use account_text::wording::counted;
use felgotany::refusals::rule;
use felgotany::Outcome;
use std::collections::BTreeMap;

/// What a name of the book is answered: its total, its refusal, or that it is not read.
#[derive(Clone, Copy)]
pub enum Answer {
    Total(i64),
    Refused(Outcome),
    NotRead,
}

/// How many accounts were accepted, refused with which refusal, and not read.
#[derive(Default)]
pub struct Summary {
    accepted: usize,
    refused: BTreeMap<usize, usize>,
    not_read: usize,
}

impl Summary {
    pub fn count(&mut self, answer: &Answer) {
        match answer {
            Answer::Total(_) => self.accepted += 1,
            Answer::Refused(refused) => *self.refused.entry(refused.refusal).or_default() += 1,
            Answer::NotRead => self.not_read += 1,
        }
    }

    pub fn status(&self) -> Status {
        match (self.not_read, self.refused.is_empty()) {
            (0, true) => Status::Answered,
            (0, false) => Status::Refused,
            _ => Status::NotRead,
        }
    }

    /// The counts in words, of the accounts that this names.
    pub fn told(&self, of: &str) -> String {
        let refused: usize = self.refused.values().sum();
        let Summary { accepted, not_read, .. } = self;
        let accounts = counted(accepted + refused + not_read, "account");
        let mut told = format!("felgotany: {of}{accounts}: {accepted} accepted, {refused} refused, {not_read} not read\n");
        for (refusal, count) in &self.refused {
            told += &format!("  refusal {refusal}, {}: {count}\n", rule(*refusal).unwrap_or_default());
        }
        told
    }
}
