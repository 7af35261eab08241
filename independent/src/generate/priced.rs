//! Accounts made for their credits: price risks and net deltas at which the unit price risk of request
//! 2026-04 falls on a half, is rounded to nothing, is rounded well up, or outgrows 64 bits; and net
//! deltas so small that the tenths of request 2026-03 use parts of a ten-thousandth.

use super::random::Random;
use super::values::{percent, tenths};
use super::write::{put, record, Bytes};
use crate::format::*;

/// Two to four contracts with one prompt each, long and short in turn, and entries between them. In
/// half of the accounts all have the same sizes, so that the net deltas are used up.
pub fn account(random: &mut Random) -> Vec<Bytes> {
    let numbers: Vec<i64> = (0..random.between(2, 4)).map(|place| 4 * place + 1).collect();
    let long_first = random.one_in(2);
    let tiny = random.one_in(4);
    let unit = if random.one_in(2) { random.pick(&[1, 2, 4, 10, 100, 1_000]) } else { 0 };
    let shared = (!tiny && random.one_in(2)).then(|| sizes(random, unit));
    let (mut contracts, mut prompts, mut rows) = (vec![], vec![], vec![]);
    for (place, number) in numbers.iter().enumerate() {
        contracts.push(record(CONTRACT, &[(NUMBER, *number), (UNIT, unit)]));
        prompts.push(record(PROMPT, &[(NUMBER, *number), (PROMPT_TIER, 1), (DAY, 20_260_318)]));
        let sign = if long_first == place.is_multiple_of(2) { 1 } else { -1 };
        let sizes =
            if tiny { tiny_sizes(random) } else { shared.unwrap_or_else(|| sizes(random, unit)) };
        rows.extend(position(random, *number, sign, sizes));
    }
    let entries: Vec<Bytes> =
        (0..random.between(1, 3)).map(|_| entry(random, &numbers, tiny)).collect();
    [contracts, prompts, rows, entries].concat()
}

fn entry(random: &mut Random, numbers: &[i64], tiny: bool) -> Bytes {
    let first = random.place(numbers.len());
    let second = (first + 1 + random.place(numbers.len() - 1)) % numbers.len();
    let percent = if random.one_in(3) {
        50
    } else if random.one_in(2) {
        100
    } else {
        percent(random)
    };
    let ratios = match random.below(8) {
        _ if tiny => [random.between(1, 5), tenths(random), 1],
        0..=2 => [1, 1, 0],
        3 => [2, 1, 0],
        4 => [10, 10, 1],
        5 => [random.pick(&[5, 15, 25]), 10, 1],
        _ => [tenths(random), tenths(random), 1],
    };
    let fields = [
        (NUMBER, numbers[first]),
        (SECOND_NUMBER, numbers[second]),
        (PERCENT, percent),
        (FIRST_RATIO, ratios[0]),
        (SECOND_RATIO, ratios[1]),
        (TENTHS, ratios[2]),
    ];
    record(ENTRY, &fields)
}

/// One row that has the net delta and one that has the losses, in scenarios 3 and 4 or in 3 alone.
fn position(random: &mut Random, number: i64, sign: i64, sizes: Sizes) -> [Bytes; 2] {
    let (lots, lot_delta, [held, value, ticks]) = sizes;
    let of_row = [(NUMBER, number), (DAY, 20_260_318)];
    let mut with_delta = record(ROW, &of_row);
    put(&mut with_delta, LOTS, sign * lots);
    put(&mut with_delta, delta(FORWARD), lot_delta);
    put(&mut with_delta, VALUE, 1);
    let mut with_losses = record(ROW, &of_row);
    put(&mut with_losses, LOTS, held);
    put(&mut with_losses, VALUE, value);
    put(&mut with_losses, loss(2), ticks);
    put(&mut with_losses, loss(3), if random.one_in(4) { 0 } else { ticks });
    [with_delta, with_losses]
}

/// Lots and delta, then lots, value and ticks of the losses.
type Sizes = (i64, i64, [i64; 3]);

fn sizes(random: &mut Random, unit: i64) -> Sizes {
    let odd = 2 * random.between(0, 40) + 1;
    match random.below(10) {
        // An odd number of hundredths over 8 lots, or 40, or 200, is a half of a fourth decimal.
        0 | 1 => (random.pick(&[8, 40, 200]), 10_000, [1, 1, odd]),
        // One unit for each lot: half of it is a half where the lots used are odd.
        2 | 3 => (odd, 10_000, [odd, 1, unit.max(1)]),
        // The request's own net delta, and price risks about its own.
        4..=7 => (30_000, 10_000, [1, 1, random.between(9_900, 20_100)]),
        // Next to nothing over much.
        8 => (random.between(40_000, LOTS.most), 10_000, [1, 1, random.between(1, 3)]),
        // The most over 0.0001.
        _ => (1, 1, [LOTS.most, VALUE.most, loss(2).most]),
    }
}

/// A few ten-thousandths, of which ratios in tenths use parts.
fn tiny_sizes(random: &mut Random) -> Sizes {
    (random.between(1, 3), random.between(1, 8), [1, 1, random.between(1, 9)])
}
