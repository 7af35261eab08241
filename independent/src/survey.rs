//! A survey of generated files: how often each answer occurs, how large the files are, what their
//! figures show, and which refusals compete in one file.

mod currencies;
mod refused;
mod roundings;
mod sights;
mod tenths;
mod units;

use crate::tally::TELLING;
use independent::book::INTERCONTRACT;
use independent::check::{fault, not_whole_records, too_long};
use independent::format::*;
use independent::generate::{self, Random};
use independent::margin::figures_of;
use independent::refusal::*;
use independent::{book, check, figures, Account, Refusal};
use refused::refused;
use roundings::roundings;
use sights::Sight;
use std::collections::BTreeMap;
use std::fmt;
use std::io;
use tenths::tenths;

/// The size classes of the histogram: the most records of each.
const SIZES: [usize; 9] = [0, 5, 10, 20, 40, 80, 160, 320, MOST_RECORDS];

pub struct Survey {
    count: u64,
    accepted: u64,
    refusals: BTreeMap<u8, u64>,
    sizes: BTreeMap<usize, u64>,
    /// By number of records, whether an accepted file had so many.
    lengths: Vec<bool>,
    sights: BTreeMap<&'static str, u64>,
    refused: BTreeMap<&'static str, u64>,
    /// How often a file was refused for what is rare among the faults of a spread.
    legs: BTreeMap<&'static str, u64>,
    active: BTreeMap<usize, u64>,
    /// The first fault of a file and another condition that holds for the same record.
    in_one_record: BTreeMap<(u8, u8), u64>,
    /// The first fault of a file and one of a later record, of the file or of the question.
    in_one_file: BTreeMap<(u8, u8), u64>,
}

impl Survey {
    pub fn of(seed: u64, count: u64) -> Survey {
        let mut survey = Survey {
            count,
            accepted: 0,
            refusals: BTreeMap::new(),
            sizes: BTreeMap::new(),
            lengths: vec![false; MOST_RECORDS + 1],
            sights: BTreeMap::new(),
            refused: BTreeMap::new(),
            legs: FAULTS_OF_LEGS.map(|what| (what, 0)).into(),
            active: BTreeMap::new(),
            in_one_record: BTreeMap::new(),
            in_one_file: BTreeMap::new(),
        };
        for index in 0..count {
            let file = generate::account(seed, index);
            let mut random = Random::new(!seed, index);
            survey.see(&file, &mut random);
        }
        survey
    }

    fn see(&mut self, file: &[u8], random: &mut Random) {
        match check(file) {
            Ok(account) => {
                self.accepted += 1;
                self.lengths[account.records] = true;
                let class = SIZES.iter().find(|most| account.records <= **most);
                *self.sizes.entry(*class.unwrap_or(&MOST_RECORDS)).or_default() += 1;
                self.sights_of(&account);
            }
            Err(refusal) => {
                *self.refusals.entry(refusal.number).or_default() += 1;
                count(&mut self.refused, refused(file, refusal));
                count(&mut self.refused, currencies::refused(file, refusal));
                self.competitors(file, refusal);
                if let Some(fault) = fault_of_legs(file, refusal) {
                    *self.legs.entry(fault).or_default() += 1;
                }
            }
        }
        self.ask(file, random);
    }

    /// Puts questions with numbers lent that may be too few; counts refusals 10 and 11.
    fn ask(&mut self, file: &[u8], random: &mut Random) {
        let question = generate::question(random);
        let mut all = [0; 256];
        let asked = figures(file, &mut all)
            .and_then(|needed| figures(file, &mut all[..generate::lent(random, needed)]));
        let needed = book(file, question, &mut all);
        let lent = generate::lent(random, *needed.as_ref().unwrap_or(&0));
        let booked = book(file, question, &mut all[..lent]);
        for answer in [asked, booked] {
            match answer {
                Err(Refusal { number: number @ (TOO_FEW_LENT | UNLISTED_QUESTION), .. }) => {
                    *self.refusals.entry(number).or_default() += 1;
                }
                _ => {}
            }
        }
        let listed = |record: &Record| {
            record.kind() == CONTRACT && u64::try_from(record.get(NUMBER)) == Ok(question)
        };
        let contract_unlisted = question != INTERCONTRACT && !records(file).iter().any(listed);
        match booked {
            Err(refusal) if refusal.number == UNLISTED_QUESTION => {
                if lent == 0 {
                    self.compete(UNLISTED_QUESTION, TOO_FEW_LENT);
                }
            }
            Err(refusal) if contract_unlisted => self.compete(refusal.number, UNLISTED_QUESTION),
            _ => {}
        }
    }

    fn compete(&mut self, first: u8, other: u8) {
        *self.in_one_file.entry((first, other)).or_default() += 1;
    }

    /// Notes the other conditions that hold in a refused file.
    fn competitors(&mut self, file: &[u8], first: Refusal) {
        let records = records(file);
        let mut later = [false; OVER_LIMIT as usize + 1];
        if first.number == TOO_LONG {
            later[NOT_WHOLE_RECORDS as usize] = not_whole_records(file);
        }
        let whole_file = too_long(file) || not_whole_records(file);
        for place in first.record..records.len().min(MOST_RECORDS) {
            for number in UNKNOWN_KIND..=OVER_LIMIT {
                if !fault(number, records[place], &records[..place]) {
                    continue;
                }
                if whole_file || place > first.record {
                    later[number as usize] = true;
                } else if number > first.number {
                    *self.in_one_record.entry((first.number, number)).or_default() += 1;
                }
            }
        }
        for number in NOT_WHOLE_RECORDS..=OVER_LIMIT {
            if later[number as usize] {
                self.compete(first.number, number);
            }
        }
    }

    fn sights_of(&mut self, account: &Account) {
        let all = figures_of(account);
        for contract in &all {
            *self.active.entry(contract.active_scenario).or_default() += 1;
        }
        count(&mut self.sights, sights::figures(account, &all));
        count(&mut self.sights, sights::totals_of(account));
        count(&mut self.sights, sights::steps(account));
        count(&mut self.sights, roundings(account));
        count(&mut self.sights, tenths(account));
        count(&mut self.sights, currencies::currencies(account));
        count(&mut self.sights, units::units(account));
    }

    /// A fault if a refusal, or a sort of accepted account, never occurred in a count that should show
    /// every one.
    pub fn nothing_missing(&self) -> io::Result<()> {
        if self.count < TELLING {
            return Ok(());
        }
        let refusals: Vec<String> = (TOO_LONG..=UNLISTED_QUESTION)
            .chain([NO_RATE, CONVERSION_TOO_LARGE])
            .filter(|number| !self.refusals.contains_key(number))
            .map(|number| number.to_string())
            .collect();
        let faults = [
            ("refusals that never occurred", refusals),
            ("never accepted", never(&self.sights)),
            ("never refused", never(&self.refused)),
            ("legs never refused for", never(&self.legs)),
        ];
        match faults.into_iter().find(|(_, missing)| !missing.is_empty()) {
            Some((what, missing)) => {
                Err(io::Error::other(format!("{what}: {}", missing.join(", "))))
            }
            None => Ok(()),
        }
    }
}

fn count(counts: &mut BTreeMap<&'static str, u64>, sights: Vec<Sight>) {
    for (what, seen) in sights {
        *counts.entry(what).or_default() += u64::from(seen);
    }
}

/// What was looked for and never seen.
fn never(counts: &BTreeMap<&'static str, u64>) -> Vec<String> {
    counts.iter().filter(|(_, count)| **count == 0).map(|(what, _)| what.to_string()).collect()
}

const FAULTS_OF_LEGS: [&str; 4] = [
    "a number of legs",
    "legs 2 and 3 alike",
    "a third leg below its range",
    "a third leg above its range",
];

/// Which of these faults a file is refused for.
fn fault_of_legs(file: &[u8], refusal: Refusal) -> Option<&'static str> {
    let record = *records(file).get(refusal.record).filter(|record| record.kind() == SPREAD)?;
    let legs = record.get(LEGS);
    let leg = |leg| (record.get(leg_tier(leg)), record.get(leg_side(leg)));
    let third = [leg_tier(2), leg_side(2), leg_ratio(2)];
    match refusal.number {
        OUT_OF_RANGE if !(LEGS.least..=LEGS.most).contains(&legs) => Some(FAULTS_OF_LEGS[0]),
        ORDER_OR_CLASH if legs == 3 && leg(1) == leg(2) => Some(FAULTS_OF_LEGS[1]),
        OUT_OF_RANGE if third.iter().any(|field| record.get(*field) < field.least) => {
            Some(FAULTS_OF_LEGS[2])
        }
        OUT_OF_RANGE if third.iter().any(|field| record.get(*field) > field.most) => {
            Some(FAULTS_OF_LEGS[3])
        }
        _ => None,
    }
}

impl fmt::Display for Survey {
    fn fmt(&self, out: &mut fmt::Formatter<'_>) -> fmt::Result {
        writeln!(out, "files {}", self.count)?;
        writeln!(out, "accepted {}", self.accepted)?;
        for (number, count) in &self.refusals {
            writeln!(out, "refusal {number}: {count}")?;
        }
        let lengths = self.lengths.iter().filter(|seen| **seen).count();
        writeln!(out, "different record counts among accepted files: {lengths} of 641")?;
        for (most, count) in &self.sizes {
            let bytes = most * RECORD_BYTES;
            writeln!(out, "accepted with at most {most} records ({bytes} bytes): {count}")?;
        }
        for (what, count) in &self.sights {
            writeln!(out, "accepted with {what}: {count}")?;
        }
        for (what, count) in &self.refused {
            writeln!(out, "refused with {what}: {count}")?;
        }
        for (what, count) in &self.legs {
            writeln!(out, "refused for {what}: {count}")?;
        }
        for (scenario, count) in &self.active {
            writeln!(out, "active scenario {scenario}: {count} contracts")?;
        }
        for ((first, other), count) in &self.in_one_record {
            writeln!(out, "refusal {first} while {other} holds for the same record: {count}")?;
        }
        for ((first, other), count) in &self.in_one_file {
            writeln!(out, "refusal {first} while {other} holds elsewhere: {count}")?;
        }
        Ok(())
    }
}

#[cfg(test)]
mod tests {
    use super::Survey;

    #[test]
    fn a_sort_of_account_that_never_occurred_is_told() {
        let refusals = (1..=11).chain([14, 15]).map(|number| (number, 1)).collect();
        let sights = [("a tie", 0), ("a half", 3)].into_iter().collect();
        let survey = Survey { count: 2_000, refusals, sights, ..Survey::of(1, 0) };
        let told = survey.nothing_missing().expect_err("no tie occurred").to_string();
        assert_eq!(told, "never accepted: a tie");
    }

    #[test]
    fn a_refusal_that_never_occurred_is_told_from_2_000_files_on() {
        let of_nothing = |count| Survey { count, ..Survey::of(1, 0) }.nothing_missing();
        assert!(of_nothing(1_999).is_ok());
        let told = of_nothing(2_000).expect_err("nothing occurred").to_string();
        assert_eq!(told, "refusals that never occurred: 1, 2, 3, 4, 5, 6, 7, 8, 9, 10, 11, 14, 15");
    }

    #[test]
    fn a_fault_of_legs_that_never_occurred_is_told() {
        let refusals = (1..=11).chain([14, 15]).map(|number| (number, 1)).collect();
        let survey = Survey { count: 2_000, refusals, ..Survey::of(1, 0) };
        let told = survey.nothing_missing().expect_err("no fault of legs occurred").to_string();
        assert!(told.starts_with("legs never refused for: "), "{told}");
        assert!(told.contains("legs 2 and 3 alike"), "{told}");
    }
}
