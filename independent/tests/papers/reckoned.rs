//! The reckoned examples of document 01.

use crate::builder::*;
use independent::margin::{credit, PAIRED_SCENARIOS};
use independent::units::{Amount, Delta, Unit};

/// P1's prompts and spreads, which are 002's Case Three, with amounts in hundredths.
fn p1() -> Vec<u8> {
    file(&[
        &[contract(1, 0)],
        &[
            prompt_at(1, 1, 960617, 300, 100),
            prompt(1, 2, 960618),
            prompt(1, 2, 960619),
            prompt_at(1, 3, 960620, 200, 100),
            prompt(1, 3, 960621),
            prompt(1, 3, 960624),
        ],
        &net(1, 960617, -300_000),
        &net(1, 960618, 200_000),
        &net(1, 960619, -50_000),
        &net(1, 960620, 1_000_000),
        &net(1, 960621, -100_000),
        &net(1, 960624, -100_000),
        &[
            pair(1, 10_000, 1, 1),
            pair(1, 20_000, 2, 2),
            pair(1, 35_000, 3, 3),
            pair(1, 22_500, 1, 2),
            pair(1, 32_500, 2, 3),
            pair(1, 37_500, 1, 3),
        ],
    ])
}

#[test]
fn p1_case_three_forms_0_5_20_15_0_15_and_charges_17_000_and_225() {
    let prompts = [
        [-300_000, -300_000, 0],
        [200_000, 200_000, 0],
        [-50_000, -50_000, 0],
        [1_000_000, 350_000, 650_000],
        [-100_000, -100_000, 0],
        [-100_000, -100_000, 0],
    ];
    // Tier 1 is short only, so its spreads with tiers 2 and 3 form in the second step.
    let spreads = [[0, 0], [50_000, 0], [200_000, 0], [0, 150_000], [0, 0], [0, 150_000]];
    assert_eq!(book_of(&p1(), 1), [prompts.concat(), spreads.concat()].concat());
    assert_eq!(figures_of(&p1()), [1, 1, 0, 1_700_000, 22_500, 0, 0, 1_722_500, 1_722_500]);
}

#[test]
fn p2_of_000_forms_6_4_0() {
    let account = file(&[
        &[contract(2, 0)],
        &[prompt(2, 1, 200703), prompt(2, 1, 200704), prompt(2, 2, 200712), prompt(2, 3, 206412)],
        &net(2, 200703, 180_000),
        &net(2, 200704, -60_000),
        &net(2, 200712, -40_000),
        &net(2, 206412, 38_101),
        &[pair(2, 0, 1, 1), pair(2, 0, 1, 2), pair(2, 0, 1, 3)],
    ]);
    let book = book_of(&account, 2);
    assert_eq!(
        book[..12],
        [180_000, 100_000, 80_000, -60_000, -60_000, 0, -40_000, -40_000, 0, 38_101, 0, 38_101]
    );
    assert_eq!(book[12..], [60_000, 0, 40_000, 0, 0, 0]);
}

#[test]
fn p3_one_tier_forms_1_5000_and_then_0_0001() {
    let account = file(&[
        &[contract(0, 0)],
        &[prompt(0, 1, 1), prompt(0, 1, 2)],
        &net(0, 1, 30_001),
        &net(0, 2, -50_000),
        &[spread(0, 10_000, &[(1, 'A', 2), (1, 'B', 1)])],
    ]);
    assert_eq!(book_of(&account, 0), [30_001, 30_001, 0, -50_000, -15_002, -34_998, 15_000, 1]);
}

#[test]
fn p4_takes_the_priority_order_and_not_the_cheapest_pairing() {
    let account = file(&[
        &[contract(4, 0)],
        &[prompt(4, 1, 10), prompt(4, 2, 20), prompt(4, 3, 30)],
        &net(4, 10, 100_000),
        &net(4, 20, -100_000),
        &net(4, 30, -100_000),
        &[pair(4, 500, 1, 2), pair(4, 100, 1, 3)],
    ]);
    assert_eq!(book_of(&account, 4)[9..], [100_000, 0, 0, 0]);
    assert_eq!(figures_of(&account)[3], 5_000);
}

#[test]
fn p5_and_p6_round_1_4999_and_1_5000_hundredths_to_1_and_2() {
    let charge = |number| {
        let account = file(&[
            &[contract(1, 0)],
            &[prompt(1, 1, 1), prompt(1, 1, 2)],
            &net(1, 1, number),
            &net(1, 2, -number),
            &[pair(1, 1, 1, 1)],
        ]);
        assert_eq!(book_of(&account, 1)[6], number);
        figures_of(&account)[3]
    };
    assert_eq!(charge(14_999), 1);
    assert_eq!(charge(15_000), 2);
}

#[test]
fn p7_totals_of_minus_4_give_scanning_risk_0_and_active_scenario_1() {
    let account = file(&[&[contract(9, 0), prompt(9, 1, 1), forward(9, 1, (1, 0, 1, &[-4; 16]))]]);
    assert_eq!(figures_of(&account), [9, 1, 0, 0, 0, 0, 0, 0, 0]);
}

#[test]
fn p8_aex_credit_is_4_335_36() {
    let twice_price_risk = Amount(2 * 510_042);
    assert_eq!(
        credit(twice_price_risk, Delta(-10_012), Delta(-10_012), 85, Unit::HUNDREDTH),
        Amount(433_536)
    );
}

#[test]
fn p9_active_15_pairs_with_15() {
    assert_eq!(PAIRED_SCENARIOS[15 - 1], 15);
    // With scenario 15 alone at 100, price risk is (100 + 100)/2: a pairing with 16 would halve it.
    let mut losses = NO_LOSS;
    losses[14] = 100;
    let account = file(&[
        &[contract(1, 0), contract(2, 0), prompt(1, 1, 1), prompt(2, 1, 1)],
        &[forward(1, 1, (1, 10_000, 1, &losses)), forward(2, 1, (-1, 10_000, 1, &NO_LOSS))],
        &[entry(100, (1, 1), (2, 1))],
    ]);
    assert_eq!(figures_of(&account)[..8], [1, 15, 100, 0, 0, 100, 0, 0]);
}

#[test]
fn p10_one_short_call_at_500_and_nothing_else_gives_margin_500() {
    let account =
        file(&[&[contract(1, 500), prompt(1, 1, 1), call(1, 1, 1850, (-1, 5_200, 1, &NO_LOSS))]]);
    assert_eq!(figures_of(&account), [1, 1, 0, 0, 0, 0, 500, 500, 500]);
}

/// 5 contracts with a prompt each and 126 rows each: 640 records.
pub fn largest() -> Vec<u8> {
    let numbers = [0, 3, 7, 12, 15];
    let contracts: Vec<Record> = numbers.iter().map(|number| contract(*number, 0)).collect();
    let prompts: Vec<Record> = numbers.iter().map(|number| prompt(*number, 1, 20260318)).collect();
    let rows: Vec<Record> = numbers
        .iter()
        .flat_map(|number| {
            vec![forward(*number, 20260318, (100_000, 10_000, 10_000, &[100_000; 16])); 126]
        })
        .collect();
    file(&[&contracts, &prompts, &rows])
}

#[test]
fn bytes_61_440_pass_rule_1_and_61_441_get_1() {
    let mut account = largest();
    assert_eq!(account.len(), 61_440);
    let each = 126 * 100_000 * 10_000 * 100_000;
    assert_eq!(figures_of(&account).last(), Some(&(5 * each)));
    account.push(0);
    assert_eq!(refused(&account), Some((1, 0)));
}

#[test]
fn bytes_95_get_2() {
    let account = file(&[&[contract(1, 0)]]);
    assert_eq!(refused(&account[..95]), Some((2, 0)));
    assert_eq!(refused(&account), None);
}

#[test]
fn a_delta_of_10_000_passes_and_10_001_gets_6() {
    let with_delta =
        |delta| file(&[&[contract(1, 0), prompt(1, 1, 1), forward(1, 1, (1, delta, 1, &NO_LOSS))]]);
    assert_eq!(refused(&with_delta(10_000)), None);
    assert_eq!(refused(&with_delta(10_001)), Some((6, 2)));
}

#[test]
fn the_128th_row_passes_and_the_129th_gets_9() {
    let with_rows = |count| {
        let rows = vec![forward(1, 1, (1, 1, 1, &NO_LOSS)); count];
        file(&[&[contract(1, 0), prompt(1, 1, 1)], &rows])
    };
    assert_eq!(refused(&with_rows(128)), None);
    assert_eq!(book_of(&with_rows(128), 1), [128, 0, 128]);
    assert_eq!(refused(&with_rows(129)), Some((9, 2 + 128)));
}

#[test]
fn an_empty_file_is_an_accepted_account_with_total_0() {
    assert_eq!(figures_of(&[]), [0]);
    assert_eq!(book_of(&[], 16), [0; 0]);
}

/// The account whose printed lines document 01 gives.
pub fn printed() -> Vec<u8> {
    file(&[&[
        contract(3, 500),
        prompt_at(3, 1, 20260318, 0, 1000),
        forward(3, 20260318, (2, 9800, 25, &LME_FORWARD)),
        call(3, 20260318, 1850, (-3, 5200, 25, &LME_CALL)),
    ]])
}

#[test]
fn the_printed_account_has_its_printed_figures() {
    assert_eq!(figures_of(&printed()), [3, 13, 383_250, 0, 400, 0, 1_500, 383_650, 383_650]);
}
