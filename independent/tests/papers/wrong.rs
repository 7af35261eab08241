//! "Ways this has been got wrong", each with an account on which the wrong way gives another answer.

use crate::builder::*;

#[test]
fn a_day_is_not_matched_by_a_part_of_its_digits() {
    // Days that share their last digits, their first digits, and their low bytes.
    let days = [318, 20_318, 318 + 65_536, 20_260_318, 20_260_319, 318 + (1 << 24) + (1 << 25)];
    let mut rising = days;
    rising.sort_unstable();
    let prompts: Vec<Record> = rising.iter().map(|day| prompt(1, 1, *day)).collect();
    let rows: Vec<Record> =
        (1..).zip(rising).map(|(lots, day)| forward(1, day, (lots, 10_000, 1, &NO_LOSS))).collect();
    let book = book_of(&file(&[&[contract(1, 0)], &prompts, &rows]), 1);
    let nets: Vec<i64> = book.chunks(3).map(|prompt| prompt[0]).collect();
    assert_eq!(nets, [10_000, 20_000, 30_000, 40_000, 50_000, 60_000]);
    for unlisted in [18, 3_180, 260_318, 10_260_318, 20_260_318 + 256] {
        let row = forward(1, unlisted, (1, 1, 1, &NO_LOSS));
        let account = file(&[&[contract(1, 0)], &prompts, &[row]]);
        assert_eq!(refused(&account), Some((7, 7)), "day {unlisted}");
    }
}

#[test]
fn a_contract_is_not_matched_by_a_part_of_its_digits() {
    // 1 and 11 share a digit, 2 and 12 too; the same day in both.
    let account = file(&[
        &[contract(1, 0), contract(11, 0), prompt(1, 1, 10), prompt(11, 1, 10)],
        &[forward(1, 10, (1, 10_000, 1, &[5; 16])), forward(11, 10, (2, 10_000, 1, &[7; 16]))],
    ]);
    assert_eq!(book_of(&account, 1), [10_000, 0, 10_000]);
    assert_eq!(book_of(&account, 11), [20_000, 0, 20_000]);
    assert_eq!(figures_of(&account), [1, 1, 5, 0, 0, 0, 0, 5, 11, 1, 14, 0, 0, 0, 0, 14, 19]);
    assert_eq!(refused(&file(&[&[contract(11, 0), prompt(1, 1, 10)]])), Some((7, 1)));
}

#[test]
fn the_priority_order_is_kept_where_another_pairing_is_cheaper() {
    // Long 10 in tier 1, short 10 in tier 2, short 4 in tier 3; the dear spread stands first.
    let account = file(&[
        &[contract(1, 0), prompt(1, 1, 1), prompt(1, 2, 2), prompt(1, 3, 3)],
        &net(1, 1, 100_000),
        &net(1, 2, -100_000),
        &net(1, 3, -40_000),
        &[pair(1, 900, 1, 2), pair(1, 1, 1, 3)],
    ]);
    assert_eq!(book_of(&account, 1)[9..], [100_000, 0, 0, 0]);
    assert_eq!(figures_of(&account)[3], 9_000);
}

#[test]
fn parts_of_spreads_form() {
    let account = file(&[
        &[contract(1, 0), prompt(1, 1, 1), prompt(1, 1, 2)],
        &net(1, 1, 9_999),
        &net(1, 2, -7),
        &[pair(1, 10_000_000, 1, 1)],
    ]);
    assert_eq!(book_of(&account, 1), [9_999, 7, 9_992, -7, -7, 0, 7, 0]);
    assert_eq!(figures_of(&account)[3], 7_000);
}

#[test]
fn no_prompt_goes_past_zero() {
    // The leg takes 12 of tier 1: all 5 of the first prompt, all 4 of the third, 3 of the fourth;
    // the second, on the other side, is left to the second step.
    let account = file(&[
        &[contract(1, 0), prompt(1, 1, 1), prompt(1, 1, 2), prompt(1, 1, 3), prompt(1, 1, 4)],
        &[prompt(1, 2, 5)],
        &net(1, 1, 50_000),
        &net(1, 2, -60_000),
        &net(1, 3, 40_000),
        &net(1, 4, 90_000),
        &net(1, 5, -120_000),
        &[pair(1, 0, 1, 2)],
    ]);
    let book = book_of(&account, 1);
    assert_eq!(book[..6], [50_000, 50_000, 0, -60_000, 0, -60_000]);
    assert_eq!(book[6..15], [40_000, 40_000, 0, 90_000, 30_000, 60_000, -120_000, -120_000, 0]);
    assert_eq!(book[15..], [120_000, 0]);
}

#[test]
fn the_short_option_minimum_is_not_added_to_the_risk() {
    let account =
        file(&[&[contract(1, 500), prompt(1, 1, 1), call(1, 1, 5, (-1, 0, 1, &[-700; 16]))]]);
    assert_eq!(figures_of(&account), [1, 1, 700, 0, 0, 0, 500, 700, 700]);
}

#[test]
fn the_credit_divides_by_all_of_the_net_delta() {
    // Contract 1 is long 4 with price risk 800 and gives 3 to contract 2, then 1 to contract 3. By
    // what is left of the net delta the second credit would be all 800.
    let mut losses = NO_LOSS;
    losses[2..4].copy_from_slice(&[800, 800]);
    let account = file(&[
        &[contract(1, 0), contract(2, 0), contract(3, 0)],
        &[prompt(1, 1, 1), prompt(2, 1, 1), prompt(3, 1, 1)],
        &[forward(1, 1, (1, 0, 1, &losses))],
        &net(1, 1, 40_000),
        &net(2, 1, -30_000),
        &net(3, 1, -30_000),
        &[entry(100, (1, 1), (2, 1)), entry(50, (1, 1), (3, 1))],
    ]);
    assert_eq!(book_of(&account, 16)[..3], [40_000, 40_000, 0]);
    assert_eq!(figures_of(&account)[5], 600 + 100);
}

#[test]
fn the_credit_takes_the_net_delta_before_interprompt_use() {
    // Contract 1 uses 2 long against 2 short between its prompts; its net delta of 1 stays 1.
    let mut losses = NO_LOSS;
    losses[2..4].copy_from_slice(&[900, 900]);
    let account = file(&[
        &[contract(1, 0), contract(2, 0), prompt(1, 1, 1), prompt(1, 1, 2), prompt(2, 1, 1)],
        &[forward(1, 1, (1, 0, 1, &losses))],
        &net(1, 1, 30_000),
        &net(1, 2, -20_000),
        &net(2, 1, -5_000),
        &[pair(1, 0, 1, 1)],
        &[entry(100, (1, 1), (2, 1))],
    ]);
    assert_eq!(book_of(&account, 1)[6..], [20_000, 0]);
    assert_eq!(book_of(&account, 16), [10_000, 5_000, 5_000, -5_000, -5_000, 0, 5_000, 0]);
    assert_eq!(figures_of(&account)[5], 450);
}

#[test]
fn the_second_step_is_run_where_the_legs_share_a_tier() {
    // A takes 3 and B takes 1 to a spread. Of 1.0000 long the first step takes 0.9999; the 0.0001 left
    // is taken by B in the second. Where the first step takes all of a side, the second forms nothing.
    let both = |long: i64, short: i64| {
        let account = file(&[
            &[contract(1, 0), prompt(1, 1, 1), prompt(1, 1, 2)],
            &net(1, 1, long),
            &net(1, 2, -short),
            &[spread(1, 0, &[(1, 'A', 3), (1, 'B', 1)])],
        ]);
        book_of(&account, 1)[6..].to_vec()
    };
    assert_eq!(both(10_000, 30_000), [3_333, 1]);
    assert_eq!(both(10_001, 30_000), [3_333, 2]);
    assert_eq!(both(30_000, 10_000), [10_000, 0]);
    assert_eq!(both(20_000, 5_000), [5_000, 0]);
}
