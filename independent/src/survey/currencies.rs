//! What rows in several currencies, request 2026-05, bring about.

use super::sights::Sight;
use independent::account::Row;
use independent::currency::{conversion, products, rates, row_fault, Rate};
use independent::format::*;
use independent::refusal::*;
use independent::units::Quotient;
use independent::{Account, Refusal};

const LIMIT: i128 = 100_000_000_000_000;

pub fn currencies(account: &Account) -> Vec<Sight> {
    let rows = || account.contracts.iter().flat_map(|contract| &contract.rows);
    let all: Vec<Quotient> = rows().flat_map(|row| conversions(row, &account.rates)).collect();
    let any = |seen: fn(&Quotient) -> bool| all.iter().any(seen);
    let two = account.contracts.iter().any(|contract| {
        let first = contract.rows.first().map(|row| row.currency);
        contract.rows.iter().any(|row| Some(row.currency) != first)
    });
    vec![
        ("no currency rates", account.rates.is_empty()),
        ("currency rates", !account.rates.is_empty()),
        ("currency rates alone", !account.rates.is_empty() && account.contracts.is_empty()),
        ("all seven currency rates", account.rates.len() == 7),
        ("a row in another currency", rows().any(|row| row.currency != MARGIN_CURRENCY)),
        ("rows in two currencies in one contract", two),
        ("a converted loss that ends in a half", any(|of| of.dividend > 0 && of.is_half())),
        ("a converted gain that ends in a half", any(|of| of.dividend < 0 && of.is_half())),
        ("a converted loss of just the limit", any(|of| of.halves_away() == LIMIT)),
        ("a converted gain of just the limit", any(|of| of.halves_away() == -LIMIT)),
    ]
}

/// A row's conversions before they are rounded; none in the margin currency.
fn conversions(row: &Row, rates: &[Rate]) -> Vec<Quotient> {
    let rate = rates.iter().find(|rate| rate.currency == row.currency);
    let product = |ticks: &i64| row.lots * row.value.0 * ticks;
    rate.map_or(vec![], |rate| {
        row.losses.iter().map(|ticks| conversion(product(ticks), *rate)).collect()
    })
}

pub fn refused(file: &[u8], refusal: Refusal) -> Vec<Sight> {
    let records = records(file);
    let rates = rates(&records);
    let is_row = |record: &&Record| record.kind() == ROW;
    let fault = |record: &Record| row_fault(*record, &rates);
    let of = |number| refusal.number == number;
    let after = || records.iter().skip(refusal.record + 1).filter(is_row);
    let before = || records.iter().take(refusal.record).filter(is_row);
    let on_record = (UNKNOWN_KIND..=OVER_LIMIT).contains(&refusal.number);
    let named = || records[refusal.record];
    let has_later = |number| after().any(|row| fault(row) == Some(number));
    vec![
        ("14 before a row of 15", of(NO_RATE) && has_later(CONVERSION_TOO_LARGE)),
        ("15 before a row of 14", of(CONVERSION_TOO_LARGE) && has_later(NO_RATE)),
        ("14 for a row of 0 lots", of(NO_RATE) && named().get(LOTS) == 0),
        ("15 for the half of a hundredth", of(CONVERSION_TOO_LARGE) && by_a_half(named(), &rates)),
        ("3 to 9 after a row of 14 or 15", on_record && before().any(|row| fault(row).is_some())),
    ]
}

/// Whether a row passes the limit nowhere by more than a half.
fn by_a_half(row: Record, rates: &[Rate]) -> bool {
    let rate = rates.iter().find(|rate| rate.currency == row.get(CURRENCY));
    let twice = |of: Quotient| 2 * of.dividend.abs();
    rate.is_some_and(|rate| {
        products(row).iter().all(|product| {
            let of = conversion(*product, *rate);
            twice(of) <= (2 * LIMIT + 1) * of.divisor
        })
    })
}
