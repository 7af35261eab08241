//! Request 2026-04 of document 02: "The unit price risk, price risk over |net delta|, is rounded to four
//! decimals, halves up, before it meets used delta and percent."

use crate::builder::*;
use independent::margin::{credit, credit_of, unit_price_risk};
use independent::units::{Amount, Delta, Unit};

/// Contract 1 with this price risk in hundredths and this net delta, all used against contract 2.
fn fully_used(price_risk: i32, net_delta: i64, percent: u8) -> Vec<u8> {
    let mut losses = NO_LOSS;
    losses[2..4].copy_from_slice(&[price_risk, price_risk]);
    file(&[
        &[contract(1, 0), contract(2, 0), prompt(1, 1, 1), prompt(2, 1, 1)],
        &[forward(1, 1, (1, 0, 1, &losses))],
        &net(1, 1, net_delta),
        &net(2, 1, -net_delta),
        &[entry(percent, (1, 1), (2, 1))],
    ])
}

/// The credit of contract 1 in that account.
fn earned(price_risk: i32, net_delta: i64, percent: u8) -> i64 {
    figures_of(&fully_used(price_risk, net_delta, percent))[5]
}

#[test]
fn a_price_risk_of_100_00_on_30_000_at_100_percent_earns_99_00() {
    assert_eq!(earned(10_000, 300_000_000, 100), 9_900);
    let unit = unit_price_risk(Amount(2 * 10_000), Delta(300_000_000));
    assert_eq!(unit.halves_up(), 33);
}

#[test]
fn p8_stays_4_335_36() {
    let unit = unit_price_risk(Amount(2 * 510_042), Delta(-10_012));
    // 000 prints 5,094.3068.
    assert_eq!(unit.halves_up(), 50_943_068);
    assert_eq!(
        credit(Amount(2 * 510_042), Delta(-10_012), Delta(-10_012), 85, Unit::HUNDREDTH),
        Amount(433_536)
    );
}

#[test]
fn a_half_of_the_fourth_decimal_goes_up() {
    // 0.01 over 8 lots is 0.00125: 0.0013. Over 8.0001 lots it is below the half.
    assert!(unit_price_risk(Amount(2), Delta(80_000)).is_half());
    assert_eq!(unit_price_risk(Amount(2), Delta(80_000)).halves_up(), 13);
    assert_eq!(unit_price_risk(Amount(2), Delta(-80_000)).halves_up(), 13);
    assert_eq!(unit_price_risk(Amount(2), Delta(80_001)).halves_up(), 12);
    assert_eq!(unit_price_risk(Amount(2), Delta(79_999)).halves_up(), 13);
}

#[test]
fn the_halves_of_a_price_risk_are_kept() {
    // 0.005 over 4 lots is 0.00125 too.
    assert_eq!(unit_price_risk(Amount(1), Delta(40_000)).halves_up(), 13);
    assert_eq!(unit_price_risk(Amount(1), Delta(40_001)).halves_up(), 12);
}

#[test]
fn the_credit_is_then_rounded_once_halves_up() {
    // 0.01 for each of 3 lots, at 50 percent: 1.5 hundredths.
    assert!(credit_of(100, Delta(30_000), 50).is_half());
    assert_eq!(earned(3, 30_000, 50), 2);
    assert_eq!(earned(3, 30_000, 49), 1);
    // 0.0013 for each of 8 lots: 1.04 hundredths.
    assert_eq!(earned(1, 80_000, 100), 1);
}

#[test]
fn a_unit_price_risk_may_be_rounded_to_nothing() {
    // 0.01 over 200 lots is half of the fourth decimal; over 201 it is less.
    assert_eq!(earned(1, 2_000_000, 100), 2);
    assert_eq!(earned(1, 2_010_000, 100), 0);
}

#[test]
fn a_credit_may_exceed_the_price_risk() {
    // 200.00 over 30,000 lots is 0.0067 for one.
    assert_eq!(earned(20_000, 300_000_000, 100), 20_100);
}

#[test]
fn a_unit_price_risk_beyond_64_bits_is_exact() {
    // The largest price risk, 2 × 1.28e16 hundredths, on a net delta of 0.0001 is 2.56e18 of the
    // currency for one.
    assert_eq!(
        unit_price_risk(Amount(51_200_000_000_000_000), Delta(1)).halves_up(),
        25_600_000_000_000_000_000_000
    );
    let mut losses = [100_000; 16];
    losses[..2].copy_from_slice(&[-100_000, -100_000]);
    let account = file(&[
        &[contract(1, 0), contract(2, 0), prompt(1, 1, 1), prompt(2, 1, 1)],
        &vec![forward(1, 1, (100_000, 0, 10_000, &losses)); 127],
        &[forward(1, 1, (1, 1, 1, &NO_LOSS)), forward(2, 1, (-1, 1, 1, &NO_LOSS))],
        &[entry(99, (1, 1), (2, 1))],
    ]);
    assert_eq!(figures_of(&account)[5], 2 * 127 * 100_000_000_000_000 / 100 * 99);
}

#[test]
fn a_contract_used_in_two_entries_has_one_unit_price_risk() {
    // 0.01 over 8 lots: 0.0013 for one. 5 lots used, then 3: 0.65 and 0.39 hundredths round to 1 and 0.
    let mut losses = NO_LOSS;
    losses[2..4].copy_from_slice(&[1, 1]);
    let account = file(&[
        &[contract(1, 0), contract(2, 0), contract(3, 0)],
        &[prompt(1, 1, 1), prompt(2, 1, 1), prompt(3, 1, 1)],
        &[forward(1, 1, (1, 0, 1, &losses))],
        &net(1, 1, 80_000),
        &net(2, 1, -50_000),
        &net(3, 1, -50_000),
        &[entry(100, (1, 1), (2, 1)), entry(100, (1, 1), (3, 1))],
    ]);
    assert_eq!(figures_of(&account)[5], 1);
}
