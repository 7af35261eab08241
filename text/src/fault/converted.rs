//! What is wrong with a row and the account's currency rates: no rate, or a conversion beyond its limit.

use super::place;
use crate::wording::*;
use independent::currency::{conversion, products, Rate, MOST_CONVERTED};
use independent::format::*;

/// The rate that a row in another currency than the margin's is converted at.
fn rate_of(row: Record, rates: &[Rate]) -> Option<Rate> {
    rates.iter().find(|rate| rate.currency == row.get(CURRENCY)).copied()
}

fn converts(record: Record) -> bool {
    record.kind() == ROW && record.get(CURRENCY) != MARGIN_CURRENCY
}

/// The fault for which a row is given 14, or else 15.
pub fn fault(row: Record, rates: &[Rate]) -> Option<String> {
    no_rate(row, rates).or_else(|| beyond(row, rates))
}

pub fn no_rate(row: Record, rates: &[Rate]) -> Option<String> {
    let lacking = converts(row) && rate_of(row, rates).is_none();
    lacking.then(|| say(WITHOUT_RATE, &[&place(row, CURRENCY), &row.get(CURRENCY)]))
}

/// The first scenario whose conversion, rounded to a hundredth, is beyond the limit.
pub fn beyond(row: Record, rates: &[Rate]) -> Option<String> {
    let rate = rate_of(row, rates).filter(|_| converts(row))?;
    let converted = |product: i64| conversion(product, rate).halves_away();
    let (scenario, product) =
        (1..).zip(products(row)).find(|(_, product)| converted(*product).abs() > MOST_CONVERTED)?;
    let (what, adjusted) = if product > 0 { ("loss", "raised") } else { ("gain", "lowered") };
    Some(say(
        BEYOND,
        &[
            &place(row, CURRENCY),
            &row.get(CURRENCY),
            &what,
            &product.abs(),
            &scenario,
            &converted(product).abs(),
            &rate.spot,
            &adjusted,
            &rate.adjustment_percent,
            &MOST_CONVERTED,
        ],
    ))
}
