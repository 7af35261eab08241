//! Roundings to a contract's unit, request 2026-09, that are exact halves; also where it is a hundredth.

use super::sights::Sight;
use independent::account::{Contract, Row};
use independent::book::interprompt;
use independent::currency::conversion;
use independent::margin::{prompt_charge, short_option_minimum, spread_charge};
use independent::units::{Quotient, Unit};
use independent::Account;

pub fn units(account: &Account) -> Vec<Sight> {
    let above = |contract: &&Contract| contract.unit != Unit::HUNDREDTH;
    let contracts = || account.contracts.iter();
    let half = |contract: &Contract, of: &Quotient| contract.unit.of(*of).is_half();
    let halves = |contract: &Contract, gain: bool| {
        let products = contract.rows.iter().flat_map(|row| hundredths(account, row));
        products.filter(|of| (of.dividend < 0) == gain).any(|of| half(contract, &of))
    };
    vec![
        ("units of one hundredth alone", contracts().all(|of| of.unit == Unit::HUNDREDTH)),
        ("a unit above a hundredth", contracts().any(|of| above(&of))),
        ("a unit of 1,000", contracts().any(|of| of.unit == Unit(1_000))),
        ("a loss that ends in half a unit", contracts().any(|of| halves(of, false))),
        ("a gain that ends in half a unit", contracts().any(|of| halves(of, true))),
        (
            "a spread's charge that ends in half a hundredth",
            contracts().any(|of| !above(&of) && spread_charges(of).iter().any(|q| half(of, q))),
        ),
        (
            "a spread's charge that ends in half a larger unit",
            contracts().filter(above).any(|of| spread_charges(of).iter().any(|q| half(of, q))),
        ),
        (
            "a prompt's charge that ends in half a hundredth",
            contracts().any(|of| !above(&of) && prompt_charges(of).iter().any(|q| half(of, q))),
        ),
        (
            "a prompt's charge that ends in half a larger unit",
            contracts().filter(above).any(|of| prompt_charges(of).iter().any(|q| half(of, q))),
        ),
        (
            "a short option minimum that is no multiple of the unit",
            contracts().any(|of| short_option_minimum(of).0 % of.unit.0 != 0),
        ),
    ]
}

/// A row's products in hundredths, before they are rounded to the unit.
fn hundredths(account: &Account, row: &Row) -> Vec<Quotient> {
    let rate = account.rates.iter().find(|rate| rate.currency == row.currency);
    let hundredths = |ticks: &i64| {
        let product = row.lots * row.value.0 * ticks;
        let whole =
            rate.map_or(i128::from(product), |rate| conversion(product, *rate).halves_away());
        Quotient { dividend: whole, divisor: 1 }
    };
    row.losses.iter().map(hundredths).collect()
}

fn spread_charges(contract: &Contract) -> Vec<Quotient> {
    let book = interprompt(contract);
    let spreads = contract.spreads.iter().enumerate();
    spreads.map(|(place, spread)| spread_charge(book.formed(place), spread.rate)).collect()
}

fn prompt_charges(contract: &Contract) -> Vec<Quotient> {
    let book = interprompt(contract);
    let prompts = contract.prompts.iter().zip(&book.lines);
    prompts.map(|(prompt, line)| prompt_charge(prompt, line)).collect()
}
