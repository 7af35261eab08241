//! The delta book: who paid for what, in the steps of one contract or of the intercontract table.

use crate::account::{Account, Contract, Entry, Prompt};
use crate::steps::{steps, used, Leg, Net, Step};
use crate::units::{Delta, Spreads};

/// The question that asks for the intercontract table.
pub const INTERCONTRACT: u64 = 16;

/// One prompt of a delta book (one contract in the intercontract table).
#[derive(Clone, Copy, Debug, PartialEq, Eq)]
pub struct Line {
    pub net: Delta,
    pub used: Delta,
    pub unused: Delta,
}

pub struct Book {
    pub lines: Vec<Line>,
    /// The two steps of each spread or entry, with what each prompt gave in each.
    pub steps: Vec<[Step; 2]>,
}

impl Book {
    fn of(prompts: &[Net], spreads: &[Vec<Leg>]) -> Book {
        let steps = steps(prompts, spreads);
        let lines = prompts
            .iter()
            .zip(used(prompts, &steps))
            .map(|(prompt, used)| Line { net: prompt.delta, used, unused: prompt.delta - used })
            .collect();
        Book { lines, steps }
    }

    /// The number of a spread in its first step and in its second.
    pub fn formed(&self, spread: usize) -> (Spreads, Spreads) {
        let [first, second] = &self.steps[spread];
        (first.number, second.number)
    }

    /// "How many times some step moved some prompt's unused delta towards zero" (2026-11 of document 02).
    /// No step takes from a prompt by two legs, since they take from different tiers or sides.
    pub fn takes(&self) -> usize {
        let given = self.steps.iter().flatten().flat_map(|step| &step.given);
        given.filter(|given| **given != Delta(0)).count()
    }

    /// "Three numbers per prompt (net, used, unused), then two per spread (number in its first step,
    /// in its second)." By 2026-11 "the book gains" the number of takes "at its end".
    pub fn numbers(&self) -> Vec<i64> {
        let mut numbers = vec![];
        for line in &self.lines {
            numbers.extend([line.net.0, line.used.0, line.unused.0]);
        }
        for [first, second] in &self.steps {
            numbers.extend([first.number.0, second.number.0]);
        }
        numbers.push(self.takes() as i64);
        numbers
    }

    /// What each prompt gave in each step, step after step.
    pub fn uses(&self) -> Vec<i64> {
        self.steps.iter().flatten().flat_map(|step| &step.given).map(|given| given.0).collect()
    }
}

/// The delta book of a question: 16, or the number of a contract that the account lists.
pub fn book_of(account: &Account, question: u64) -> Option<Book> {
    if question == INTERCONTRACT {
        return Some(intercontract(account));
    }
    let number = i64::try_from(question).ok()?;
    account.contract(number).map(interprompt)
}

/// "Net delta of a prompt: lots × delta over its rows."
pub fn net_delta(contract: &Contract, prompt: &Prompt) -> Delta {
    contract
        .rows
        .iter()
        .filter(|row| row.day == prompt.day)
        .map(|row| Delta(row.lots * row.delta.0))
        .sum()
}

/// The book of a contract's interprompt spreads.
pub fn interprompt(contract: &Contract) -> Book {
    let prompts: Vec<Net> = contract
        .prompts
        .iter()
        .map(|prompt| Net { tier: prompt.tier, delta: net_delta(contract, prompt) })
        .collect();
    let spreads: Vec<Vec<Leg>> =
        contract.spreads.iter().map(|spread| spread.legs.clone()).collect();
    Book::of(&prompts, &spreads)
}

/// "Intercontract spreads run by the same steps, each contract a tier with one prompt whose net delta
/// is the sum over its prompts before interprompt use; the first contract is A."
pub fn intercontract(account: &Account) -> Book {
    let contracts: Vec<Net> = account
        .contracts
        .iter()
        .map(|contract| Net {
            tier: contract.number,
            delta: contract.prompts.iter().map(|prompt| net_delta(contract, prompt)).sum(),
        })
        .collect();
    let entries: Vec<Vec<Leg>> = account.entries.iter().map(Entry::legs).collect();
    Book::of(&contracts, &entries)
}
