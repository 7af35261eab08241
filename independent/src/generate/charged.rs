//! Accounts made for their charges: numbers, deltas and rates at which a spread's or a prompt's charge
//! ends in half of the contract's unit, request 2026-09, or of a hundredth.

use super::random::Random;
use super::write::{put, record, Bytes};
use crate::format::*;

/// One contract, long in tier 1 and short in tier 2, with spreads between the two.
pub fn account(random: &mut Random) -> Vec<Bytes> {
    let number = random.between(0, 15);
    let unit = random.pick(&[0, 1, 2, 4, 10, 100, 1_000]);
    // Whole lots for a unit that has a half, half lots for a hundredth.
    let (lot, half) = if unit > 1 { (10_000, unit / 2) } else { (5_000, 1) };
    let odd = |random: &mut Random| 2 * random.between(0, 30) + 1;
    let mut records = vec![record(CONTRACT, &[(NUMBER, number), (UNIT, unit)])];
    for (tier, day) in [(1, 7), (2, 8)] {
        let rates = [half * odd(random), half * random.between(0, 50)];
        let fields = [(NUMBER, number), (PROMPT_TIER, tier), (DAY, day)];
        let mut prompt = record(PROMPT, &fields);
        put(&mut prompt, RATE_IN_SPREADS, rates[0]);
        put(&mut prompt, RATE_OUTRIGHT, rates[1]);
        records.push(prompt);
    }
    for (sign, day) in [(1, 7), (-1, 8)] {
        let lots = sign * odd(random);
        let fields =
            [(NUMBER, number), (DAY, day), (LOTS, lots), (delta(FORWARD), lot), (VALUE, 1)];
        records.push(record(ROW, &fields));
    }
    for _ in 0..random.between(1, 2) {
        let fields = [(NUMBER, number), (LEGS, 2), (SPREAD_RATE, half * odd(random))];
        let mut spread = record(SPREAD, &fields);
        let sides = if random.one_in(2) { [SIDE_A, SIDE_B] } else { [SIDE_B, SIDE_A] };
        for (leg, side) in sides.into_iter().enumerate() {
            put(&mut spread, leg_tier(leg), leg as i64 + 1);
            put(&mut spread, leg_side(leg), side);
            put(&mut spread, leg_ratio(leg), random.pick(&[1, 1, 3]));
        }
        records.push(spread);
    }
    records
}
