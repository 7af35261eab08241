//! Request 2026-09 of document 02, currencies without cents: "Bytes 8-9 of kind 1 hold the unit in
//! hundredths, 0 and 1 both meaning one hundredth, at most 1,000."

use crate::builder::*;

/// A contract with this unit and one prompt, and these rows.
fn account(unit: u16, rows: &[Record]) -> Vec<u8> {
    file(&[&[in_units(unit, contract(1, 0)), prompt(1, 1, 1)], rows])
}

/// One lot at value 1 that loses so much in every scenario.
fn row(loss: i32) -> Record {
    forward(1, 1, (1, 0, 1, &[loss; 16]))
}

#[test]
fn a_product_is_rounded_to_the_unit_halves_away_from_zero() {
    let rounded = |unit, loss| figures_of(&account(unit, &[row(loss)]))[2];
    assert_eq!([49, 50, 149, 150].map(|loss| rounded(100, loss)), [0, 100, 100, 200]);
    assert_eq!([499, 500, 1_499, 1_500].map(|loss| rounded(1_000, loss)), [0, 1_000, 1_000, 2_000]);
    // An odd unit has no halves.
    assert_eq!([1, 2, 4, 5].map(|loss| rounded(3, loss)), [0, 3, 3, 6]);
    // 0 and 1 both mean one hundredth.
    assert_eq!([0, 1].map(|unit| rounded(unit, 7)), [7, 7]);
    // A gain of 50 goes to -100, one of 49 to nothing.
    let gain = |loss: i32| figures_of(&account(100, &[row(10_000), row(-loss)]))[2];
    assert_eq!([49, 50, 150].map(gain), [10_000, 9_900, 9_800]);
}

#[test]
fn each_row_is_rounded_before_adding() {
    assert_eq!(figures_of(&account(100, &[row(49), row(49), row(49)]))[2], 0);
    assert_eq!(figures_of(&account(100, &[row(50), row(50)]))[2], 200);
    assert_eq!(figures_of(&account(100, &[row(50), row(-50)]))[2], 0);
}

#[test]
fn the_active_scenario_goes_by_the_rounded_products() {
    // Scenario 2 is larger by 1, and the same after rounding.
    let mut losses = [120; 16];
    losses[1] = 121;
    let rows = [forward(1, 1, (1, 0, 1, &losses))];
    assert_eq!(figures_of(&account(0, &rows))[1..3], [2, 121]);
    assert_eq!(figures_of(&account(100, &rows))[1..3], [1, 100]);
}

#[test]
fn a_product_is_first_converted_to_hundredths_and_then_rounded_to_the_unit() {
    // 99 at 0.5 is 49.5, in hundredths 50, and 50 is half of the unit. From 49.5 at once it would be 0.
    let rows = [in_currency(1, row(99))];
    let with_rate = |unit| [account(unit, &rows), file(&[&[rate(1, 500_000, 0)]])].concat();
    assert_eq!(figures_of(&with_rate(0))[2], 50);
    assert_eq!(figures_of(&with_rate(100))[2], 100);
}

#[test]
fn refusal_15_looks_at_the_hundredths() {
    let most = in_currency(1, forward(1, 1, (100_000, 0, 10_000, &[100_000; 16])));
    let with_rate = |spot| [account(999, &[most]), file(&[&[rate(1, spot, 0)]])].concat();
    // 1e14 is rounded to 999 × 100,100,100,100 = 99,999,999,999,900 of its unit.
    assert_eq!(figures_of(&with_rate(1_000_000))[2], 99_999_999_999_900);
    assert_eq!(refused(&with_rate(1_000_001)), Some((15, 2)));
}

/// Long 1.5 and short 1.5 in one tier, which form 1.5 spreads at this rate.
fn charged(unit: u16, rate: u32, in_spreads: u32) -> Vec<i64> {
    figures_of(&file(&[
        &[in_units(unit, contract(1, 0)), prompt_at(1, 1, 1, in_spreads, 0), prompt(1, 1, 2)],
        &net(1, 1, 15_000),
        &net(1, 2, -15_000),
        &[pair(1, rate, 1, 1)],
    ]))
}

#[test]
fn charges_go_from_the_exact_value_to_the_unit_in_one_rounding() {
    // 1.5 × 33 is 49.5: to hundredths first it would be 50, and then 100.
    assert_eq!(charged(100, 33, 33)[3..5], [0, 0]);
    assert_eq!(charged(0, 33, 33)[3..5], [50, 50]);
    // 1.5 × 100 is just a half and goes up.
    assert_eq!(charged(100, 100, 100)[3..5], [200, 200]);
    assert_eq!(charged(300, 100, 99)[3..5], [300, 0]);
}

#[test]
fn credits_are_rounded_to_the_unit_of_their_contract_halves_up() {
    let mut losses = NO_LOSS;
    losses[2..4].copy_from_slice(&[150, 150]);
    let earned = |units: [u16; 2]| {
        let account = file(&[
            &[in_units(units[0], contract(1, 0)), in_units(units[1], contract(2, 0))],
            &[prompt(1, 1, 1), prompt(2, 1, 1)],
            &[
                forward(1, 1, (1, 10_000, 1, &losses)),
                forward(2, 1, (-1, 10_000, 1, &losses.map(|of| -of))),
            ],
            &[entry(100, (1, 1), (2, 1))],
        ]);
        let figures = figures_of(&account);
        [figures[5], figures[13]]
    };
    assert_eq!(earned([0, 0]), [150, 150]);
    // The product of 150 is rounded to 200 before, and the credit is of that.
    assert_eq!(earned([100, 0]), [200, 150]);
    assert_eq!(earned([0, 100]), [150, 200]);
    // At 4 the product is 152 and the credit too.
    assert_eq!(earned([4, 1_000]), [152, 0]);
}

#[test]
fn a_credit_of_half_a_unit_goes_up() {
    let mut losses = NO_LOSS;
    losses[2..4].copy_from_slice(&[100, 100]);
    let earned = |percent| {
        figures_of(&file(&[
            &[in_units(100, contract(1, 0)), contract(2, 0), prompt(1, 1, 1), prompt(2, 1, 1)],
            &[forward(1, 1, (1, 10_000, 1, &losses)), forward(2, 1, (-1, 10_000, 1, &NO_LOSS))],
            &[entry(percent, (1, 1), (2, 1))],
        ]))[5]
    };
    assert_eq!([49, 50, 100].map(earned), [0, 100, 100]);
}

#[test]
fn the_short_option_minimum_stays_exact() {
    let account = file(&[&[
        in_units(1_000, contract(1, 7)),
        prompt(1, 1, 1),
        call(1, 1, 5, (-3, 0, 1, &NO_LOSS)),
    ]]);
    assert_eq!(figures_of(&account)[6..], [21, 21, 21]);
}

#[test]
fn each_contract_has_its_own_unit() {
    let account = file(&[
        &[in_units(100, contract(1, 0)), contract(2, 0), in_units(1_000, contract(3, 0))],
        &[prompt(1, 1, 1), prompt(2, 1, 1), prompt(3, 1, 1)],
        &[1, 2, 3].map(|number| forward(number, 1, (1, 0, 1, &[551; 16]))),
    ]);
    let figures = figures_of(&account);
    assert_eq!([figures[2], figures[10], figures[18], figures[24]], [600, 551, 1_000, 2_151]);
}

#[test]
fn a_unit_above_1_000_is_a_6() {
    for unit in [0, 1, 2, 255, 256, 999, 1_000] {
        assert_eq!(refused(&account(unit, &[])), None);
    }
    for unit in [1_001, 1_024, 65_535] {
        assert_eq!(refused(&account(unit, &[])), Some((6, 0)));
    }
    // Bytes 3 and 10 beside it are unused.
    for byte in [2, 3, 10] {
        let contract = with(in_units(1_001, contract(1, 0)), byte, 1);
        assert_eq!(refused(&file(&[&[contract]])), Some((5, 0)));
    }
}
