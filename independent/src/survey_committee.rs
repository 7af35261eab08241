//! A survey of the committee's figures of generated runs.

use crate::tally::Tally;
use independent::check::check;
use independent::committee::{
    committee, compared_risk, figures, Committee, MOST_ACCOUNTS, NUMBERS,
};
use independent::generate::{self, Random, Run};
use independent::margin::{figures_of, Figures};
use independent::refusal::*;
use independent::run::{accounts, answer};
use independent::units::Amount;

pub fn survey(seed: u64, count: u64) -> Tally {
    let mut tally = Tally::new("runs", count);
    for index in 0..count {
        let run = generate::run(seed, index);
        let lent = generate::lent(&mut Random::new(!seed, index), NUMBERS);
        refusals(&mut tally, &run, lent);
        if let Ok(files) = accounts(&run.bytes, &run.lengths) {
            if files.len() <= MOST_ACCOUNTS {
                see(&mut tally, &files, &committee(&files));
            }
        }
    }
    tally
}

fn refusals(tally: &mut Tally, run: &Run, lent: usize) {
    let told = figures(&run.bytes, &run.lengths, &mut vec![0; lent]);
    let number = told.err().map(|refusal| refusal.number);
    tally.refusal(&[TOO_MANY_ACCOUNTS, LENGTHS_DIFFER, TOO_FEW_LENT], number);
    let of = |wanted| number == Some(wanted);
    let differ = accounts(&run.bytes, &run.lengths).is_err();
    tally.sight("refusal 19 while 17 holds", of(TOO_MANY_ACCOUNTS) && differ);
    tally.sight("refusal 19 while 10 holds", of(TOO_MANY_ACCOUNTS) && lent < NUMBERS);
    tally.sight("refusal 17 while 10 holds", of(LENGTHS_DIFFER) && lent < NUMBERS);
    tally.sight("101 accounts", of(TOO_MANY_ACCOUNTS) && run.lengths.len() == 101);
    tally.sight("100 accounts", number.is_none() && run.lengths.len() == 100);
}

fn see(tally: &mut Tally, files: &[&[u8]], of: &Committee) {
    let totals: Vec<Option<i64>> = files
        .iter()
        .map(|file| answer(file).ok().and_then(|numbers| numbers.last().copied()))
        .collect();
    let largest = totals.iter().filter(|total| **total == Some(of.largest.0)).count();
    tally.sight("no account accepted", of.accepted == 0 && !files.is_empty());
    tally.sight("a run of no accounts", files.is_empty());
    tally.sight("several accounts with the largest margin", of.largest > Amount(0) && largest > 1);
    tally.sight("a largest margin of 0", of.accepted > 0 && of.largest == Amount(0));
    tally.sight("the largest margin after a refused account", {
        of.accepted > 0 && totals[..of.place as usize].contains(&None)
    });
    tally.sight("an account with credit", of.accounts_with_credit > 0);
    tally.sight("a minimum above the risk", of.contracts_at_minimum > 0);
    let contracts = || {
        files.iter().filter_map(|file| check(file).ok()).flat_map(|account| figures_of(&account))
    };
    let gap = |contract: &Figures| contract.short_option_minimum - compared_risk(contract);
    let short = |contract: &Figures| contract.short_option_minimum > Amount(0);
    tally.sight(
        "a minimum equal to the risk",
        contracts().any(|contract| short(&contract) && gap(&contract) == Amount(0)),
    );
    tally.sight("a minimum of one more", contracts().any(|contract| gap(&contract) == Amount(1)));
    tally.sight("a remainder", of.remainder > 0);
    for number in (1..=9).chain([14, 15]) {
        let seen = of.refusals[number - 1] > 0;
        tally.sight(&format!("an account with refusal {number}"), seen);
    }
}
