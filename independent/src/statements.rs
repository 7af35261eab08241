//! Two things clients ask us to state, request 2026-13 of document 02, as they can be tried on an account.
//! Quoted sentences are that request's.

use crate::account::Account;
use crate::book::INTERCONTRACT;
use crate::margin::{scanning_risk, totals};
use crate::units::Amount;
use crate::{held_book, held_figures};

/// "First, the order of rows within a contract changes no figure and no delta book, for accepted
/// accounts." Whether two accounts agree in all of these.
pub fn same_answers(one: &Account, other: &Account) -> bool {
    let books = |account: &Account| -> Vec<Vec<i64>> {
        let book = |question| held_book(account, question).map_or(vec![], |book| book.numbers());
        (0..=INTERCONTRACT).map(book).collect()
    };
    held_figures(one) == held_figures(other) && books(one) == books(other)
}

/// A contract's scanning risk over the rows of both accounts, and the two it is compared with.
#[derive(Clone, Copy, Debug, PartialEq, Eq)]
pub struct Risks {
    pub both: Amount,
    pub parts: [Amount; 2],
}

impl Risks {
    /// "Second, [..] a contract's scanning risk over the rows of both is at most the sum of the two."
    pub fn hold(&self) -> bool {
        self.both <= self.parts[0] + self.parts[1]
    }
}

/// The scanning risks of each contract, over the rows of both accounts and of each.
pub fn risks(both: &Account, parts: [&Account; 2]) -> Vec<Risks> {
    let risk = |account: &Account, place: usize| scanning_risk(&totals(&account.contracts[place]));
    (0..both.contracts.len())
        .map(|place| Risks {
            both: risk(both, place),
            parts: parts.map(|account| risk(account, place)),
        })
        .collect()
}
