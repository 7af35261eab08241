//! Copper in four currencies, request 2026-05 of document 02: "One combined contract takes rows in several
//! currencies (002 nets them). Byte 3 of a row names currency 0..7, 0 being the margin currency." Quoted
//! sentences are that request's.

use crate::format::*;
use crate::refusal::*;
use crate::units::{Amount, Quotient};

/// "Kind 6, after kind 5".
#[derive(Clone, Copy, Debug, PartialEq, Eq)]
pub struct Rate {
    pub currency: i64,
    /// In millionths.
    pub spot: i64,
    pub adjustment_percent: i64,
}

/// The rates among the records of a file.
pub fn rates(records: &[Record]) -> Vec<Rate> {
    let of_kind = records.iter().filter(|record| record.kind() == CURRENCY_RATE);
    let rate = |record: &Record| Rate {
        currency: record.get(RATE_CURRENCY),
        spot: record.get(SPOT_RATE),
        adjustment_percent: record.get(ADJUSTMENT),
    };
    of_kind.map(rate).collect()
}

/// "Each row's loss in a scenario is converted at the rate raised by that percent, each gain at the rate
/// lowered by it, rounded to a hundredth, halves away from zero." This is the conversion before it is
/// rounded, in hundredths of the margin currency.
pub fn conversion(product: i64, rate: Rate) -> Quotient {
    // "Whether it is loss or gain goes by the sign of lots × value × loss"
    let percent =
        if product > 0 { 100 + rate.adjustment_percent } else { 100 - rate.adjustment_percent };
    Quotient {
        dividend: i128::from(product) * i128::from(rate.spot) * i128::from(percent),
        divisor: 1_000_000 * 100,
    }
}

/// Lots × value × loss of a row in each scenario, in hundredths of its own currency.
pub fn products(row: Record) -> [i64; SCENARIOS] {
    let mut products = [0; SCENARIOS];
    for (scenario, product) in products.iter_mut().enumerate() {
        *product = row.get(LOTS) * row.get(VALUE) * row.get(loss(scenario));
    }
    products
}

/// A row's products in hundredths of the margin currency: "currency 0 is not converted". The check has
/// seen that there is a rate and that each conversion is within its limit.
pub fn converted_products(row: Record, rates: &[Rate]) -> [Amount; SCENARIOS] {
    products(row).map(|product| match rate_of(row, rates) {
        Some(rate) => {
            let rounded = conversion(product, rate).halves_away();
            Amount(i64::try_from(rounded).expect("a conversion is within its limit"))
        }
        None => Amount(product),
    })
}

fn rate_of(row: Record, rates: &[Rate]) -> Option<Rate> {
    rates.iter().find(|rate| rate.currency == row.get(CURRENCY)).copied()
}

/// "A rounded conversion beyond ±100,000,000,000,000".
pub const MOST_CONVERTED: i128 = 100_000_000_000_000;

/// "14 for a row whose currency has no rate, else 15 for one with a rounded conversion beyond" the limit.
pub fn row_fault(row: Record, rates: &[Rate]) -> Option<u8> {
    if row.get(CURRENCY) == MARGIN_CURRENCY {
        return None;
    }
    let Some(rate) = rate_of(row, rates) else { return Some(NO_RATE) };
    let beyond = |product| conversion(product, rate).halves_away().abs() > MOST_CONVERTED;
    products(row).into_iter().any(beyond).then_some(CONVERSION_TOO_LARGE)
}

/// "After all records and before 11, for rows in file order": the first row with a fault answers.
pub fn check_rows(records: &[Record]) -> Result<(), Refusal> {
    let rates = rates(records);
    for (record, row) in records.iter().enumerate().filter(|(_, record)| record.kind() == ROW) {
        if let Some(number) = row_fault(*row, &rates) {
            return Err(Refusal { number, record });
        }
    }
    Ok(())
}
