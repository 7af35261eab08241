//! A survey of generated pairs: how often each refusal occurs, where the contracts of the joined
//! accounts come from, and on which side of its two comparisons the call falls.

use crate::tally::TELLING;
use independent::account::Contract;
use independent::book::intercontract;
use independent::check::check_records;
use independent::format::*;
use independent::generate::{self, Random};
use independent::joined::{self, Cover};
use independent::margin::{figures_of, total};
use independent::refusal::*;
use independent::units::{Amount, Delta};
use independent::Account;
use std::collections::BTreeMap;
use std::fmt;
use std::io;

pub struct PairSurvey {
    count: u64,
    joined: u64,
    /// By file and number.
    refusals: BTreeMap<(u8, u8), u64>,
    sights: BTreeMap<&'static str, u64>,
}

impl PairSurvey {
    pub fn of(seed: u64, count: u64) -> PairSurvey {
        let (refusals, sights) = (BTreeMap::new(), BTreeMap::new());
        let mut survey = PairSurvey { count, joined: 0, refusals, sights };
        for index in 0..count {
            let (morning, noon) = generate::pair(seed, index);
            survey.see(&morning, &noon, &mut Random::new(!seed, index));
        }
        survey
    }

    fn see(&mut self, morning: &[u8], noon: &[u8], random: &mut Random) {
        let account = joined::account(morning, noon);
        let (requirement, needed) = match &account {
            Ok(account) => {
                self.joined += 1;
                self.sources(morning, noon, account);
                (total(&figures_of(account)), 8 * account.contracts.len() + 1)
            }
            Err(refusal) => {
                self.refuse(*refusal);
                self.competitors(morning, noon, *refusal);
                (Amount(0), 0)
            }
        };
        let cover = generate::cover(random, requirement);
        match joined::call(morning, noon, cover) {
            Ok(call) => self.comparisons(requirement, cover, call),
            Err(refusal) => self.asked(refusal),
        }
        let mut lent = [0; 256];
        let figures = joined::figures(morning, noon, &mut lent[..generate::lent(random, needed)]);
        let question = generate::question(random);
        let needed = joined::book(morning, noon, question, &mut lent).unwrap_or(0);
        let lent = &mut lent[..generate::lent(random, needed)];
        let book = joined::book(morning, noon, question, lent);
        [figures, book].into_iter().filter_map(Result::err).for_each(|refusal| self.asked(refusal));
    }

    fn refuse(&mut self, refusal: PairRefusal) {
        *self.refusals.entry((refusal.file, refusal.number)).or_default() += 1;
    }

    /// Counts a refusal of what was asked; those of the pair itself are counted once.
    fn asked(&mut self, refusal: PairRefusal) {
        if [AMOUNT_OUT_OF_RANGE, UNLISTED_QUESTION, TOO_FEW_LENT].contains(&refusal.number) {
            self.refuse(refusal);
        }
    }

    fn sight(&mut self, what: &'static str, seen: bool) {
        *self.sights.entry(what).or_default() += u64::from(seen);
    }

    fn sources(&mut self, morning: &[u8], noon: &[u8], account: &Account) {
        let (morning, noon) = (records(morning), records(noon));
        let has = |records: &[Record], kind, number| {
            records.iter().any(|record| record.kind() == kind && record.get(NUMBER) == number)
        };
        let table = intercontract(account);
        let (mut kept, mut new, mut flat, mut used) = (false, false, false, false);
        for (contract, line) in account.contracts.iter().zip(&table.lines) {
            let number = contract.number;
            match (has(&morning, CONTRACT, number), has(&noon, CONTRACT, number)) {
                (_, false) => kept = true,
                (false, true) => new = true,
                (true, true) => {
                    flat |= has(&morning, ROW, number) && contract.prompts.is_empty();
                    used |= line.used != Delta(0);
                }
            }
        }
        self.sight("a contract of the morning", kept);
        self.sight("a contract that the morning lacks", new);
        self.sight("a contract flat at noon", flat);
        self.sight("a contract of noon used in the morning's entries", used);
        self.sight("640 records", account.records == MOST_RECORDS);
        let converted = |contract: &Contract| {
            has(&noon, CONTRACT, contract.number)
                && contract.rows.iter().any(|row| row.currency > 0)
        };
        self.sight("a noon row at a rate of the morning", account.contracts.iter().any(converted));
    }

    /// Notes what else holds for a refused pair.
    fn competitors(&mut self, morning: &[u8], noon: &[u8], first: PairRefusal) {
        let of = |file, number| (first.file, first.number) == (file, number);
        self.sight(
            "a noon file refused as well",
            first.file == MORNING && check_records(noon).is_err(),
        );
        let at_entry = of(NOON, UNLISTED) && records(noon)[first.record].kind() == ENTRY;
        self.sight("a noon entry of an unlisted contract", at_entry);
        let without = || joined::join(morning, &noon[..first.record * RECORD_BYTES]);
        let crowded = of(NOON, NOON_ENTRY)
            && without().is_err_and(|refusal| refusal.number == TOO_MANY_JOINED);
        self.sight("a noon entry and more than 640 records", crowded);
        let rate = of(NOON, NOON_ENTRY) && records(noon)[first.record].kind() == CURRENCY_RATE;
        self.sight("a noon currency rate", rate);
        let joined = |records| of(JOINED, TOO_MANY_JOINED) && first.record == records;
        self.sight("641 records", joined(MOST_RECORDS + 1));
        self.sight("1,280 records", joined(2 * MOST_RECORDS));
    }

    fn comparisons(&mut self, requirement: Amount, cover: Cover, call: Amount) {
        let (reached, collateral) = (cover.last_call + cover.threshold, cover.collateral);
        self.sight("a call", call > Amount(0));
        self.sight("a call of one", call == Amount(1));
        self.sight(
            "a call, the requirement one above last call and threshold",
            call > Amount(0) && reached + Amount(1) == requirement,
        );
        self.sight(
            "no call, the requirement just last call and threshold, and above collateral",
            reached == requirement && collateral < requirement,
        );
        self.sight(
            "no call, the requirement just collateral, and above last call and threshold",
            collateral == requirement && reached < requirement,
        );
    }

    /// A fault if a refusal never occurred in a count that should show every one.
    pub fn nothing_missing(&self) -> io::Result<()> {
        let missing: Vec<String> = every_pair_refusal()
            .iter()
            .filter(|refusal| !self.refusals.contains_key(refusal))
            .map(|(file, number)| format!("{number} of file {file}"))
            .collect();
        if self.count < TELLING || missing.is_empty() {
            Ok(())
        } else {
            Err(io::Error::other(format!("refusals that never occurred: {}", missing.join(", "))))
        }
    }
}

impl fmt::Display for PairSurvey {
    fn fmt(&self, out: &mut fmt::Formatter<'_>) -> fmt::Result {
        writeln!(out, "pairs {}", self.count)?;
        writeln!(out, "joined {}", self.joined)?;
        for ((file, number), count) in &self.refusals {
            writeln!(out, "refusal {number} of file {file}: {count}")?;
        }
        for (what, count) in &self.sights {
            writeln!(out, "with {what}: {count}")?;
        }
        Ok(())
    }
}

#[cfg(test)]
mod tests {
    use super::PairSurvey;

    #[test]
    fn a_refusal_that_never_occurred_is_told_from_2_000_pairs_on() {
        let of_nothing = |count| PairSurvey { count, ..PairSurvey::of(1, 0) }.nothing_missing();
        assert!(of_nothing(1_999).is_ok());
        let told = of_nothing(2_000).expect_err("nothing occurred").to_string();
        assert!(told.starts_with("refusals that never occurred: 1 of file 1, 2 of file 1, "));
        assert!(told.contains("9 of file 1, 1 of file 2, "));
        assert!(told.ends_with(
            ", 9 of file 2, 12 of file 2, 13 of file 0, 14 of file 0, 15 of file 0, 21 of file 0, \
             11 of file 0, 10 of file 0"
        ));
    }
}
