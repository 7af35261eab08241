//! Accounts made for their conversions, request 2026-05: products at which a conversion is just the most
//! there may be, or passes it by a half, and rows whose currency has no rate. Some are refused.

use super::random::Random;
use super::values::unit;
use super::write::{record, Bytes};
use crate::format::*;

const DAY_OF_ALL: i64 = 20_260_318;

/// One to three contracts with one prompt each and a few rows, and most of the rates.
pub fn account(random: &mut Random) -> Vec<Bytes> {
    let numbers: Vec<i64> = (0..random.between(1, 3)).map(|place| 5 * place).collect();
    let faulty = random.one_in(2);
    let mut rows = vec![];
    for number in &numbers {
        rows.extend((0..random.between(1, 6)).map(|_| row(random, *number, faulty)));
    }
    let unit = if random.one_in(3) { unit(random) } else { 0 };
    let contract = |number: &i64| record(CONTRACT, &[(NUMBER, *number), (UNIT, unit)]);
    let prompt =
        |number: &i64| record(PROMPT, &[(NUMBER, *number), (PROMPT_TIER, 1), (DAY, DAY_OF_ALL)]);
    let mut records: Vec<Bytes> = numbers.iter().map(contract).collect();
    records.extend(numbers.iter().map(prompt));
    records.extend(rows);
    records.extend(rates(random, faulty));
    records
}

/// What each currency is at; a faulty account lacks some.
fn rates(random: &mut Random, faulty: bool) -> Vec<Bytes> {
    let spots = [
        (1_000_000, 0),
        (500_000, 0),
        (1_000_000, 50),
        (25_499_999, 0),
        (25_500_000, 0),
        (1_000_001, 0),
        (100_000_000, 50),
    ];
    let rate = |(currency, (spot, percent)): (i64, (i64, i64))| {
        let fields = [(RATE_CURRENCY, currency), (SPOT_RATE, spot), (ADJUSTMENT, percent)];
        record(CURRENCY_RATE, &fields)
    };
    let kept = |_: &Bytes| !(faulty && random.one_in(4));
    (1..).zip(spots).map(rate).filter(kept).collect()
}

/// A row whose product and currency go together; in a faulty account they may not.
fn row(random: &mut Random, number: i64, faulty: bool) -> Bytes {
    let (most, odd) = (LOTS.most, 2 * random.between(0, 20) + 1);
    // Lots, value, loss and currency.
    let (lots, value, ticks, currency) = match random.below(10) {
        // Just the limit, in the margin currency and converted.
        0 => (most, VALUE.most, loss(0).most, random.pick(&[0, 1])),
        // Ends in a half.
        1 | 2 => (1, 1, odd, 2),
        3 => (odd, 1, 1, 3),
        // At 25.5 this passes the limit by a half of a hundredth, at 25.499999 it does not reach it.
        4 => (50_867, 1_873, 41_161, 4),
        5 | 9 if faulty => (50_867, 1_873, 41_161, random.pick(&[5, 5, 5, 7])),
        // As a gain at 1 less 50 percent this passes, as a loss at 1 and 50 percent it does not.
        6 if faulty => (most, VALUE.most, 66_667, 3),
        5 | 6 | 9 => (most, VALUE.most, 66_666, 3),
        _ => (random.pick(&[0, 0, 0, 1]), 1, odd, random.between(0, 7)),
    };
    let currency = if faulty && random.one_in(8) { random.between(1, 7) } else { currency };
    let lots = if random.one_in(2) { lots } else { -lots };
    let mut fields = vec![
        (NUMBER, number),
        (CURRENCY, currency),
        (DAY, DAY_OF_ALL),
        (LOTS, lots),
        (delta(FORWARD), 10_000),
        (VALUE, value),
    ];
    fields.extend((0..SCENARIOS).map(|scenario| (loss(scenario), ticks)));
    if random.one_in(2) {
        fields.extend((2..SCENARIOS).map(|scenario| (loss(scenario), -ticks)));
    }
    record(ROW, &fields)
}
