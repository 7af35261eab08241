//! Roundings that matter in an account: exact halves, and what 2026-04's four places change.

use super::sights::Sight;
use independent::book::intercontract;
use independent::margin::{credit_of, totals, twice_price_risk, unit_price_risk};
use independent::units::{Amount, Delta, Quotient, Unit};
use independent::Account;

/// One credit as it is reckoned.
struct Credit {
    twice_price_risk: Amount,
    unit: Quotient,
    credit: Quotient,
    currency_unit: Unit,
}

pub fn roundings(account: &Account) -> Vec<Sight> {
    let all = credits(account);
    let any = |seen: fn(&Credit) -> bool| all.iter().any(seen);
    vec![
        ("a unit price risk that ends in a half", any(|of| of.unit.is_half())),
        (
            "a credit that ends in half a hundredth",
            any(|of| of.currency_unit == Unit::HUNDREDTH && of.credit.is_half()),
        ),
        (
            "a credit that ends in half a larger unit",
            any(|of| {
                of.currency_unit != Unit::HUNDREDTH && of.currency_unit.of(of.credit).is_half()
            }),
        ),
        ("a unit price risk beyond 64 bits", any(|of| of.unit.halves_up() >> 64 != 0)),
        ("a unit price risk rounded to 0", any(rounded_to_nothing)),
        ("a credit above the price risk", any(above_price_risk)),
    ]
}

fn rounded_to_nothing(of: &Credit) -> bool {
    of.unit.dividend > 0 && of.unit.halves_up() == 0
}

fn above_price_risk(of: &Credit) -> bool {
    2 * of.credit.halves_up() > i128::from(of.twice_price_risk.0) + 1
}

/// The credits of every contract from every entry that uses it.
fn credits(account: &Account) -> Vec<Credit> {
    let table = intercontract(account);
    let mut credits = vec![];
    for (place, contract) in account.contracts.iter().enumerate() {
        let twice_price_risk = twice_price_risk(&totals(contract));
        for (entry, [first, second]) in account.entries.iter().zip(&table.steps) {
            let used = first.given[place] + second.given[place];
            if used != Delta(0) {
                let unit = unit_price_risk(twice_price_risk, table.lines[place].net);
                let credit = credit_of(unit.halves_up(), used, entry.percent);
                let currency_unit = contract.unit;
                credits.push(Credit { twice_price_risk, unit, credit, currency_unit });
            }
        }
    }
    credits
}
