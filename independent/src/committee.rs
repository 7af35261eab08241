//! Figures for the risk committee, request 2026-12 of document 02, over a run of accounts. Quoted sentences
//! are that request's.

use crate::check::check;
use crate::margin::{figures_of, total, Figures};
use crate::refusal::*;
use crate::run::accounts;
use crate::units::Amount;

/// "At most 100 accounts."
pub const MOST_ACCOUNTS: usize = 100;

/// "Refusals for each number 1 to 15".
pub const REFUSALS: usize = 15;

/// How many numbers the answer has.
pub const NUMBERS: usize = 2 + REFUSALS + 7;

#[derive(Clone, Debug, Default, PartialEq, Eq)]
pub struct Committee {
    pub accepted: i64,
    pub refused: i64,
    /// Refusal 1 first.
    pub refusals: [i64; REFUSALS],
    pub margin: Amount,
    pub largest: Amount,
    /// "The lowest place (from 0) holding it", among all accounts of the run.
    pub place: i64,
    pub accounts_with_credit: i64,
    pub contracts_at_minimum: i64,
    pub mean: Amount,
    pub remainder: i64,
}

impl Committee {
    /// The numbers in the order in which the request names them.
    pub fn numbers(&self) -> Vec<i64> {
        let mut numbers = vec![self.accepted, self.refused];
        numbers.extend(self.refusals);
        numbers.extend([self.margin.0, self.largest.0, self.place]);
        numbers.extend([self.accounts_with_credit, self.contracts_at_minimum]);
        numbers.extend([self.mean.0, self.remainder]);
        numbers
    }

    fn accept(&mut self, place: usize, figures: &[Figures]) {
        let margin = total(figures);
        if self.accepted == 0 || margin > self.largest {
            self.largest = margin;
            self.place = place as i64;
        }
        self.accepted += 1;
        self.margin += margin;
        let credit = figures.iter().any(|contract| contract.credit > Amount(0));
        self.accounts_with_credit += i64::from(credit);
        let at_minimum = figures.iter().filter(|contract| minimum_above_risk(contract)).count();
        self.contracts_at_minimum += at_minimum as i64;
    }

    /// "Refused accounts enter no sum".
    fn refuse(&mut self, number: u8) {
        self.refused += 1;
        self.refusals[usize::from(number) - 1] += 1;
    }
}

/// "A short option minimum above the risk it is compared with", which is not below 0.
pub fn minimum_above_risk(contract: &Figures) -> bool {
    contract.short_option_minimum > compared_risk(contract)
}

/// "The risk it is compared with".
pub fn compared_risk(contract: &Figures) -> Amount {
    let charged = contract.scanning_risk + contract.interprompt_charge + contract.prompt_charge;
    (charged - contract.credit).max(Amount(0))
}

/// The committee's figures of these accounts. "With none accepted, largest, place, mean and remainder
/// are 0."
pub fn committee(files: &[&[u8]]) -> Committee {
    let mut committee = Committee::default();
    for (place, file) in files.iter().enumerate() {
        match check(file) {
            Ok(account) => committee.accept(place, &figures_of(&account)),
            Err(refusal) => committee.refuse(refusal.number),
        }
    }
    // "The mean margin as whole hundredths and a remainder."
    if committee.accepted > 0 {
        committee.mean = Amount(committee.margin.0 / committee.accepted);
        committee.remainder = committee.margin.0 % committee.accepted;
    }
    committee
}

/// Writes the committee's figures of a run at the front of the numbers lent. "Refusals: as 2026-08, 10
/// being for this answer; 19, more than 100 accounts, first."
pub fn figures(bytes: &[u8], lengths: &[u64], lent: &mut [i64]) -> Result<usize, Refusal> {
    if lengths.len() > MOST_ACCOUNTS {
        return Err(Refusal { number: TOO_MANY_ACCOUNTS, record: 0 });
    }
    let files = accounts(bytes, lengths)?;
    if lent.len() < NUMBERS {
        return Err(Refusal { number: TOO_FEW_LENT, record: 0 });
    }
    lent[..NUMBERS].copy_from_slice(&committee(&files).numbers());
    Ok(NUMBERS)
}
