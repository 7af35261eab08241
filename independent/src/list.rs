//! The clearing house's own spread list, request 2026-10 of document 02: "Some members send us the spreads
//! they say were formed: for each step its number and, per prompt, what it used." Quoted sentences are
//! that request's.

use crate::account::Account;
use crate::book::Book;
use crate::check::check;
use crate::refusal::*;
use crate::{held_book, joined};

/// A list as it is sent. "Uses are signed as in 01."
#[derive(Clone, Debug, PartialEq, Eq)]
pub struct List {
    /// How many prompts the list speaks of.
    pub prompts: usize,
    /// The number of each step: of each spread its first step, then its second.
    pub numbers: Vec<i64>,
    /// What each prompt used in each step, step after step.
    pub uses: Vec<i64>,
}

impl List {
    /// The list that a delta book makes.
    pub fn of(book: &Book) -> List {
        let numbers = book.steps.iter().flatten().map(|step| step.number.0).collect();
        List { prompts: book.lines.len(), numbers, uses: book.uses() }
    }
}

/// What is said of a list; steps count from 0.
#[derive(Clone, Copy, Debug, PartialEq, Eq)]
pub enum Verdict {
    Yes,
    /// "Its number is more than can be formed".
    More {
        step: usize,
    },
    /// "or less".
    Less {
        step: usize,
    },
    /// "or the number is right and some prompt's use is not".
    OtherUse {
        step: usize,
    },
}

/// Judges the list that a member sends for a question. "Refusals: 18, step count or prompt count differs
/// from the account's; it comes after the account's own faults and 11."
pub fn judge(file: &[u8], question: u64, list: &List) -> Result<Verdict, Refusal> {
    judge_for(&check(file)?, question, list)
}

/// The same for the joined account of a morning and a noon file.
pub fn judge_joined(
    morning: &[u8],
    noon: &[u8],
    question: u64,
    list: &List,
) -> Result<Verdict, PairRefusal> {
    let account = joined::account(morning, noon)?;
    judge_for(&account, question, list).map_err(|refusal| refusal.of(JOINED))
}

fn judge_for(account: &Account, question: u64, list: &List) -> Result<Verdict, Refusal> {
    let book = held_book(account, question)?;
    let own = List::of(&book);
    let same_counts = list.numbers.len() == own.numbers.len() && list.prompts == own.prompts;
    if !same_counts || list.uses.len() != own.uses.len() {
        return Err(Refusal { number: OTHER_COUNTS, record: 0 });
    }
    Ok(verdict(&own, list))
}

/// "Say yes exactly when the list is the one demand 3 picks, with the uses 01's steps make, otherwise name
/// the first step that is wrong, and why". Up to that step both lists use the same, so that what can be
/// formed in it is the account's own number.
fn verdict(own: &List, list: &List) -> Verdict {
    for step in 0..own.numbers.len() {
        let (right, told) = (own.numbers[step], list.numbers[step]);
        let of_step = step * own.prompts..(step + 1) * own.prompts;
        if told > right {
            return Verdict::More { step };
        }
        if told < right {
            return Verdict::Less { step };
        }
        if list.uses[of_step.clone()] != own.uses[of_step] {
            return Verdict::OtherUse { step };
        }
    }
    Verdict::Yes
}
