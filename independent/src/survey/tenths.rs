//! What ratios in tenths, request 2026-03, do in the intercontract table.

use super::sights::Sight;
use independent::book::intercontract;
use independent::steps::{Leg, Side, Step};
use independent::units::{Delta, Spreads};
use independent::Account;

/// A leg in tenths in one step: the pool it found and the number formed.
struct Use {
    leg: Leg,
    pool: Delta,
    number: Spreads,
}

pub fn tenths(account: &Account) -> Vec<Sight> {
    let table = intercontract(account);
    let mut unused: Vec<Delta> = table.lines.iter().map(|line| line.net).collect();
    let mut all: Vec<[Use; 2]> = vec![];
    for (entry, steps) in account.entries.iter().zip(&table.steps) {
        for (step, long) in steps.iter().zip([Side::A, Side::B]) {
            if entry.tenths {
                all.push(uses(account, &unused, &entry.legs(), step, long));
            }
            unused.iter_mut().zip(&step.given).for_each(|(left, given)| *left -= *given);
        }
    }
    let legs = || all.iter().flatten().filter(|of| of.number > Spreads(0));
    vec![
        ("ratios in tenths", account.entries.iter().any(|entry| entry.tenths)),
        ("a spread in tenths formed", legs().next().is_some()),
        ("a use that ends in a half", legs().any(|of| of.leg.unrounded(of.number).is_half())),
        ("a use rounded to 0", legs().any(|of| of.leg.takes(of.number) == Delta(0))),
        ("a number above its pool", legs().any(|of| of.number.0 > of.pool.0)),
        ("one spread more whose rounded uses would fit", all.iter().any(one_more_would_fit)),
    ]
}

fn uses(account: &Account, unused: &[Delta], legs: &[Leg], step: &Step, long: Side) -> [Use; 2] {
    [0, 1].map(|place| {
        let leg = legs[place];
        let contract = account.contracts.iter().position(|of| of.number == leg.tier);
        let left = contract.map_or(Delta(0), |place| unused[place]);
        let pool = if leg.side == long { left } else { -left }.max(Delta(0));
        Use { leg, pool, number: step.number }
    })
}

/// The number stops at the unrounded use, though a rounded one more might still fit.
fn one_more_would_fit(legs: &[Use; 2]) -> bool {
    let fits = |of: &Use| of.leg.takes(of.number + Spreads(1)) <= of.pool;
    legs.iter().all(|of| of.pool > Delta(0) && fits(of))
}
