//! Currency rates, request 2026-05, and the currencies of rows.

use super::random::Random;
use super::write::{put, record, Bytes};
use crate::currency::{rates, row_fault, Rate};
use crate::format::*;

/// So many rates, 7 at the most, in their order.
pub fn of_account(random: &mut Random, count: usize) -> Vec<Bytes> {
    let mut currencies: Vec<i64> = (RATE_CURRENCY.least..=RATE_CURRENCY.most).collect();
    while currencies.len() > count {
        let dropped = random.place(currencies.len());
        currencies.remove(dropped);
    }
    let rate = |currency| {
        let fields =
            [(RATE_CURRENCY, currency), (SPOT_RATE, spot(random)), (ADJUSTMENT, percent(random))];
        record(CURRENCY_RATE, &fields)
    };
    currencies.into_iter().map(rate).collect()
}

/// Rates about one, those that leave halves, the ends, or any.
fn spot(random: &mut Random) -> i64 {
    match random.below(8) {
        0 => 1_000_000,
        1 | 2 => random.pick(&[500_000, 1_500_000, 250_000, 100_000]),
        3 => random.pick(&[999_999, 1_000_001]),
        4 => random.pick(&[SPOT_RATE.least, SPOT_RATE.most]),
        5 | 6 => random.between(6_000, 2_000_000),
        _ => random.between(SPOT_RATE.least, SPOT_RATE.most),
    }
}

fn percent(random: &mut Random) -> i64 {
    match random.below(6) {
        0 | 1 => ADJUSTMENT.least,
        2 => ADJUSTMENT.most,
        3 => random.pick(&[1, 2, 4, 10, 20, 25, 49]),
        _ => random.between(ADJUSTMENT.least, ADJUSTMENT.most),
    }
}

/// Gives rows a currency of these rates, or the margin currency.
pub fn put_currencies(random: &mut Random, rows: &mut [Bytes], of: &[Bytes]) {
    let mut currencies = vec![MARGIN_CURRENCY];
    currencies.extend(of.iter().map(|rate| Record(rate).get(RATE_CURRENCY)));
    for row in rows {
        put(row, CURRENCY, random.pick(&currencies));
    }
}

/// The rates among these records.
pub fn listed(records: &[Bytes]) -> Vec<Rate> {
    let records: Vec<Record> = records.iter().map(|record| Record(record)).collect();
    rates(&records)
}

/// Takes rows without a rate, or with a conversion beyond its limit, into the margin currency.
pub fn repair(records: &mut [Bytes], rates: &[Rate]) {
    for record in records.iter_mut().filter(|record| record[0] == ROW) {
        if row_fault(Record(record), rates).is_some() {
            put(record, CURRENCY, MARGIN_CURRENCY);
        }
    }
}
