//! The worked examples of 002, the LME SPAN technical specification. Its dollars are written in
//! hundredths, its deltas in ten-thousandths.

use crate::builder::*;

#[test]
fn case_one_spreads_within_one_tier() {
    let account = file(&[
        &[contract(1, 0)],
        &[prompt_at(1, 1, 960617, 200, 100), prompt_at(1, 1, 960618, 300, 100)],
        &[prompt(1, 1, 960619), prompt(1, 1, 960620)],
        &net(1, 960617, 520_000),
        &net(1, 960618, -170_000),
        &net(1, 960619, 120_000),
        &net(1, 960620, -720_000),
        &[pair(1, 1_000, 1, 1)],
    ]);
    let prompts = [
        [520_000, 520_000, 0],
        [-170_000, -170_000, 0],
        [120_000, 120_000, 0],
        [-720_000, -470_000, -250_000],
    ];
    assert_eq!(book_of(&account, 1), [prompts.concat(), vec![640_000, 0]].concat());
    // Interprompt charge $640 and prompt date charge $155.
    assert_eq!(figures_of(&account)[3..5], [64_000, 15_500]);
}

#[test]
fn case_two_spreads_within_and_between_two_tiers() {
    let account = file(&[
        &[contract(1, 0)],
        &[prompt(1, 1, 960617), prompt(1, 1, 960618), prompt(1, 2, 960619), prompt(1, 2, 960620)],
        &net(1, 960617, 520_000),
        &net(1, 960618, -170_000),
        &net(1, 960619, 120_000),
        &net(1, 960620, -720_000),
        &[pair(1, 1_000, 1, 1), pair(1, 800, 2, 2)],
        &[spread(1, 1_200, &[(1, 'A', 2), (2, 'B', 3)])],
    ]);
    let book = book_of(&account, 1);
    assert_eq!(book[12..16], [170_000, 0, 120_000, 0]);
    // 002 forms 17 whole spreads of 35/2, charges 17 × $12 and leaves 1 and -9. Document 01 forms
    // ten-thousandths of spreads: 17.5000, charged $210, and leaves 0 and -7.5.
    assert_eq!(book[16..], [175_000, 0]);
    assert_eq!(book[2], 0);
    assert_eq!(book[11], -75_000);
    assert_eq!(figures_of(&account)[3], 17_000 + 9_600 + 21_000);
}

#[test]
fn case_three_takes_the_fourth_prompt_first_in_its_tier() {
    // The whole of Case Three is P1; here the last two spreads alone, on the deltas that the first
    // four leave: 002's "2-3" forms nothing and "1-3" takes 15 of the 80 at 960620.
    let account = file(&[
        &[contract(1, 0)],
        &[prompt(1, 1, 960617), prompt(1, 2, 960618), prompt(1, 3, 960620), prompt(1, 3, 960624)],
        &net(1, 960617, -150_000),
        &net(1, 960620, 800_000),
        &net(1, 960624, 10_000),
        &[pair(1, 32_500, 2, 3), pair(1, 37_500, 1, 3)],
    ]);
    let book = book_of(&account, 1);
    assert_eq!(book[12..], [0, 0, 0, 150_000]);
    assert_eq!(book[6..12], [800_000, 150_000, 650_000, 10_000, 0, 10_000]);
    assert_eq!(figures_of(&account)[3], 562_500);
}

/// One tier with these long and short deltas and a spread within it.
fn within_a_tier(long: i64, short: i64) -> Vec<i64> {
    book_of(
        &file(&[
            &[contract(1, 0), prompt(1, 1, 1), prompt(1, 1, 2)],
            &net(1, 1, long),
            &net(1, 2, -short),
            &[pair(1, 0, 1, 1)],
        ]),
        1,
    )
}

#[test]
fn step_one_forms_the_smaller_of_long_and_short() {
    assert_eq!(within_a_tier(46_300, 27_500)[6..], [27_500, 0]);
    assert_eq!(within_a_tier(29_100, 55_200)[6..], [29_100, 0]);
}

#[test]
fn side_a_long_and_then_side_a_short() {
    // Leg 1: long 10, short 5, side A; leg 2: long 20, short 15, side B: 10 and then 5 spreads.
    let account = file(&[
        &[contract(1, 0)],
        &[prompt(1, 1, 1), prompt(1, 1, 2), prompt(1, 2, 3), prompt(1, 2, 4)],
        &net(1, 1, 100_000),
        &net(1, 2, -50_000),
        &net(1, 3, 200_000),
        &net(1, 4, -150_000),
        &[pair(1, 0, 1, 2)],
    ]);
    let book = book_of(&account, 1);
    assert_eq!(book[12..], [100_000, 50_000]);
    assert_eq!([book[2], book[5], book[8], book[11]], [0, 0, 150_000, -50_000]);
}

/// 002's CA, CL and CH, numbered 1, 2 and 3, with net deltas 3.33, -16.32 and 6.12 and forward price
/// risks 1420 (of 1760, 1120 and time risk 20), 1380 and 2417.40. The paper prints +42.1 for the first
/// prompt of CA, which its total of 3.33 shows to be +4.21; it prints "CL - CH 1 2", which its own
/// deltas show to be two CL and one CH.
fn related_contracts() -> Vec<u8> {
    let mut ca = NO_LOSS;
    ca[..4].copy_from_slice(&[-640, 680, 1760, 1120]);
    let mut cl = NO_LOSS;
    cl[2..4].copy_from_slice(&[-1380, -1380]);
    let mut ch = NO_LOSS;
    ch[2..4].copy_from_slice(&[24_174, 24_174]);
    file(&[
        &[contract(1, 0), contract(2, 0), contract(3, 0)],
        &[
            prompt(1, 1, 301),
            prompt(1, 1, 409),
            prompt(1, 1, 504),
            prompt(2, 1, 301),
            prompt(3, 1, 301),
        ],
        &net(1, 301, 42_100),
        &net(1, 409, -86_600),
        &net(1, 504, 77_800),
        &[forward(1, 504, (1, 0, 100, &ca))],
        &net(2, 301, -163_200),
        &[forward(2, 301, (-1, 0, 100, &cl))],
        &net(3, 301, 61_200),
        &[forward(3, 301, (1, 0, 10, &ch))],
        &[entry(50, (1, 1), (3, 1)), entry(75, (2, 2), (3, 1)), entry(81, (1, 1), (2, 2))],
    ])
}

#[test]
fn intercontract_spreads_form_0_then_6_12_then_2_04() {
    let contracts = [[33_300, 20_400, 12_900], [-163_200, -163_200, 0], [61_200, 61_200, 0]];
    let entries = [[0, 0], [0, 61_200], [20_400, 0]];
    assert_eq!(book_of(&related_contracts(), 16), [contracts.concat(), entries.concat()].concat());
}

#[test]
fn intercontract_credits_are_rounded_once() {
    // 002 rounds the price risk of one delta to whole dollars first, and gives CA 704, CL 780 + 281
    // and CH 1813 (with the labels of CL and CH exchanged in the CL - CH spread). Document 01 takes
    // 000's formula and rounds once: 704.63; 776.25 + 279.45; 1813.05.
    let figures = figures_of(&related_contracts());
    assert_eq!([figures[1], figures[2], figures[5]], [3, 176_000, 70_463]);
    assert_eq!([figures[9], figures[10], figures[13]], [3, 138_000, 77_625 + 27_945]);
    assert_eq!([figures[17], figures[18], figures[21]], [3, 241_740, 181_305]);
}

#[test]
fn margin_takes_the_larger_and_does_not_add() {
    let margin_at = |rate| {
        let account = file(&[&[
            contract(1, rate),
            prompt(1, 1, 1),
            call(1, 1, 1850, (-2, 5_200, 1, &[-1_000; 16])),
        ]]);
        let figures = figures_of(&account);
        assert_eq!(figures[2], 2_000);
        figures[7]
    };
    assert_eq!(margin_at(999), 2_000);
    assert_eq!(margin_at(1_001), 2_002);
}
