//! What comes back: numbers at the front of those lent, nothing after, and nothing on a refusal; and
//! the arithmetic at the ends of the ranges.

use crate::builder::*;
use crate::reckoned::printed;
use independent::margin::{active_scenario, credit, scanning_risk, twice_price_risk};
use independent::units::{Amount, Delta, Spreads, Unit};
use independent::{book, check, figures, held_book, Refusal};

/// A number that no answer here has.
const UNTOUCHED: i64 = -777;

#[test]
fn figures_write_at_the_front_and_nothing_after() {
    let mut lent = [UNTOUCHED; 12];
    assert_eq!(figures(&printed(), &mut lent), Ok(9));
    assert_eq!(lent[..9], [3, 13, 383_250, 0, 400, 0, 1_500, 383_650, 383_650]);
    assert_eq!(lent[9..], [UNTOUCHED; 3]);
}

#[test]
fn refusal_10_names_the_record_count_and_writes_nothing() {
    let mut lent = [UNTOUCHED; 8];
    assert_eq!(figures(&printed(), &mut lent), Err(Refusal { number: 10, record: 4 }));
    assert_eq!(lent, [UNTOUCHED; 8]);
    assert_eq!(book(&printed(), 3, &mut lent[..3]), Err(Refusal { number: 10, record: 4 }));
    assert_eq!(lent, [UNTOUCHED; 8]);
    assert_eq!(book(&printed(), 3, &mut lent[..4]), Ok(4));
    assert_eq!(lent, [4_000, 0, 4_000, 0, UNTOUCHED, UNTOUCHED, UNTOUCHED, UNTOUCHED]);
}

#[test]
fn an_empty_file_needs_one_number_for_its_figures_and_one_for_its_book() {
    assert_eq!(figures(&[], &mut []), Err(Refusal { number: 10, record: 0 }));
    assert_eq!(book(&[], 16, &mut []), Err(Refusal { number: 10, record: 0 }));
    assert_eq!(book(&[], 16, &mut [UNTOUCHED]), Ok(1));
    assert_eq!(book(&[], 0, &mut []), Err(Refusal { number: 11, record: 0 }));
}

#[test]
fn refusal_11_names_the_record_count_and_writes_nothing() {
    let mut lent = [UNTOUCHED; 160];
    for question in [0, 2, 15, 17, 19, 3 + 256, 3 + (1 << 32), 16 + (1 << 32), 1 << 63, u64::MAX] {
        let refusal = book(&printed(), question, &mut lent);
        assert_eq!(refusal, Err(Refusal { number: 11, record: 4 }), "question {question}");
    }
    assert_eq!(lent, [UNTOUCHED; 160]);
}

#[test]
fn contract_0_is_a_contract_like_another() {
    let account = file(&[
        &[contract(0, 0), contract(1, 0), prompt(0, 1, 1), prompt(1, 1, 1)],
        &net(0, 1, 10_000),
        &net(1, 1, -10_000),
        &[pair(0, 0, 1, 1)],
        &[entry(0, (1, 1), (0, 1))],
    ]);
    assert_eq!(book_of(&account, 0), [10_000, 0, 10_000, 0, 0]);
    assert_eq!(book_of(&account, 16), [10_000, 10_000, 0, -10_000, -10_000, 0, 0, 10_000]);
}

#[test]
fn a_contract_without_prompts_has_figures_of_nothing_and_an_empty_book() {
    let account = file(&[&[contract(5, 9), contract(6, 9)], &[entry(100, (5, 1), (6, 1))]]);
    assert_eq!(figures_of(&account)[..8], [5, 1, 0, 0, 0, 0, 0, 0]);
    assert_eq!(book_of(&account, 5), [0; 0]);
    assert_eq!(book_of(&account, 16), [0; 8]);
}

#[test]
fn a_held_account_tells_what_each_prompt_gave_in_each_step() {
    let account = file(&[
        &[contract(1, 0), prompt(1, 1, 1), prompt(1, 1, 2), prompt(1, 1, 3)],
        &net(1, 1, 10_000),
        &net(1, 2, 20_001),
        &net(1, 3, -50_000),
        &[spread(1, 0, &[(1, 'A', 2), (1, 'B', 1)])],
    ]);
    let book = held_book(&check(&account).ok().unwrap(), 1).ok().unwrap();
    let [first, second] = &book.steps[0];
    assert_eq!((first.number, second.number), (Spreads(15_000), Spreads(1)));
    assert_eq!(first.given, [Delta(10_000), Delta(20_000), Delta(-15_000)]);
    assert_eq!(second.given, [Delta(0), Delta(1), Delta(-2)]);
}

#[test]
fn three_legs_take_from_three_pools() {
    // Legs A and B share tier 1, and a further A takes 3 of tier 2 to a spread. First step: long 6
    // of tier 1 by 1, short 4 of tier 1 by 2, long 9 of tier 2 by 3: 2 spreads. Second step: nothing
    // short in tier 2.
    let account = file(&[
        &[contract(1, 0), prompt(1, 1, 1), prompt(1, 1, 2), prompt(1, 2, 3)],
        &net(1, 1, 60_000),
        &net(1, 2, -40_000),
        &net(1, 3, 90_000),
        &[spread(1, 700, &[(1, 'A', 1), (1, 'B', 2), (2, 'A', 3)])],
    ]);
    let prompts = [[60_000, 20_000, 40_000], [-40_000, -40_000, 0], [90_000, 60_000, 30_000]];
    assert_eq!(book_of(&account, 1), [prompts.concat(), vec![20_000, 0]].concat());
    assert_eq!(figures_of(&account)[3], 1_400);
}

#[test]
fn a_charge_is_rounded_once_per_spread_over_both_its_steps() {
    // 0.2500 in each step: (0.25 + 0.25) hundredths round up to 1, by themselves they would be 0.
    let account = file(&[
        &[contract(1, 0), prompt(1, 1, 1), prompt(1, 1, 2), prompt(1, 2, 3), prompt(1, 2, 4)],
        &net(1, 1, 2_500),
        &net(1, 2, -2_500),
        &net(1, 3, 2_500),
        &net(1, 4, -2_500),
        &[pair(1, 1, 1, 2)],
    ]);
    assert_eq!(book_of(&account, 1)[12..], [2_500, 2_500]);
    assert_eq!(figures_of(&account)[3], 1);
}

#[test]
fn charges_are_rounded_before_adding() {
    // Two prompts at 0.4 hundredths each and two spreads at 0.5 each.
    let account = file(&[
        &[contract(1, 0), prompt_at(1, 1, 1, 0, 1), prompt_at(1, 1, 2, 0, 1)],
        &[prompt(1, 2, 3), prompt(1, 2, 4), prompt(1, 3, 5), prompt(1, 3, 6)],
        &net(1, 1, 4_000),
        &net(1, 2, 4_000),
        &net(1, 3, 5_000),
        &net(1, 4, -5_000),
        &net(1, 5, 5_000),
        &net(1, 6, -5_000),
        &[pair(1, 1, 2, 2), pair(1, 1, 3, 3)],
    ]);
    assert_eq!(figures_of(&account)[3..5], [2, 0]);
}

#[test]
fn a_prompts_two_parts_are_rounded_together() {
    // 0.3 used and 0.2 unused, each at one hundredth: together a half, which goes up.
    let account = file(&[
        &[contract(1, 0), prompt_at(1, 1, 1, 1, 1), prompt(1, 1, 2)],
        &net(1, 1, -5_000),
        &net(1, 2, 3_000),
        &[pair(1, 0, 1, 1)],
    ]);
    assert_eq!(book_of(&account, 1)[..3], [-5_000, -3_000, -2_000]);
    assert_eq!(figures_of(&account)[4], 1);
}

#[test]
fn credits_are_rounded_once_per_entry() {
    // Price risk 2, and half of the net delta at 50 percent in each of two entries: 0.5 and 0.5,
    // which give 1 and 1.
    let mut losses = NO_LOSS;
    losses[2..4].copy_from_slice(&[1, 1]);
    let account = file(&[
        &[contract(1, 0), contract(2, 0), contract(3, 0)],
        &[prompt(1, 1, 1), prompt(2, 1, 1), prompt(3, 1, 1)],
        &[forward(1, 1, (2, 10_000, 1, &losses))],
        &net(2, 1, -10_000),
        &net(3, 1, -10_000),
        &[entry(50, (1, 1), (2, 1)), entry(50, (3, 1), (1, 1))],
    ]);
    assert_eq!(book_of(&account, 16)[9..], [10_000, 0, 0, 10_000]);
    assert_eq!(figures_of(&account)[..8], [1, 3, 2, 0, 0, 2, 0, 0]);
}

#[test]
fn price_risk_keeps_its_halves() {
    // (1 + 0)/2 - 0 is a half; with all of the net delta used at 100 percent it goes up to 1.
    let mut totals = [Amount(0); 16];
    totals[2] = Amount(1);
    assert_eq!(twice_price_risk(&totals), Amount(1));
    assert_eq!(credit(Amount(1), Delta(7), Delta(-7), 100, Unit::HUNDREDTH), Amount(1));
    assert_eq!(credit(Amount(1), Delta(7), Delta(-7), 99, Unit::HUNDREDTH), Amount(0));
    assert_eq!(credit(Amount(1), Delta(0), Delta(0), 100, Unit::HUNDREDTH), Amount(0));
}

#[test]
fn price_risk_takes_the_active_total_even_below_0_and_is_not_below_0() {
    let mut totals = [Amount(-10); 16];
    totals[4] = Amount(-2);
    totals[5] = Amount(-4);
    assert_eq!((active_scenario(&totals), scanning_risk(&totals)), (5, Amount(0)));
    assert_eq!(twice_price_risk(&totals), Amount(-2 - 4 + 20));
    totals[5] = Amount(-100);
    assert_eq!(twice_price_risk(&totals), Amount(0));
}

#[test]
fn the_active_scenario_is_the_lowest_of_those_that_tie() {
    // 000: "if scenarios 11 and 15 give the same results, scenario 11 will be" the active one.
    let mut totals = [Amount(0); 16];
    totals[10] = Amount(9);
    totals[14] = Amount(9);
    assert_eq!(active_scenario(&totals), 11);
    totals[15] = Amount(10);
    assert_eq!(active_scenario(&totals), 16);
}

#[test]
fn credits_at_the_limits_are_exact() {
    // 128 rows at their limits: price risk 2 × 1.28e16 hundredths, net delta 1.28e11.
    let mut losses = [100_000; 16];
    losses[..2].copy_from_slice(&[-100_000, -100_000]);
    let long = vec![forward(1, 1, (100_000, 10_000, 10_000, &losses)); 128];
    let short = vec![forward(2, 1, (-100_000, 9_999, 1, &NO_LOSS)); 128];
    let account = file(&[
        &[contract(1, 0), contract(2, 0), prompt(1, 1, 1), prompt(2, 1, 1)],
        &long,
        &short,
        &[entry(99, (1, 1), (2, 1))],
    ]);
    let figures = figures_of(&account);
    // 2.56e16 × 0.9999 × 0.99 = 25,341,465,600,000,000 hundredths of a credit against 1.28e16.
    assert_eq!(figures[..8], [1, 3, 12_800_000_000_000_000, 0, 0, 25_341_465_600_000_000, 0, 0]);
}

#[test]
fn charges_and_minimum_at_the_limits_are_exact() {
    // 64 rows long at one prompt and 64 short at another, with all rates at 100,000.00.
    let rate = 10_000_000;
    let rows = |day, lots| vec![call(1, day, 1, (lots, 10_000, 1, &NO_LOSS)); 64];
    let account = file(&[
        &[contract(1, rate), prompt_at(1, 1, 1, rate, rate), prompt_at(1, 1, 2, rate, rate)],
        &rows(1, 100_000),
        &rows(2, -100_000),
        &[spread(1, rate, &[(1, 'A', 1), (1, 'B', 1)])],
    ]);
    let side = 64 * 100_000 * 10_000;
    assert_eq!(book_of(&account, 1), [side, side, 0, -side, -side, 0, side, 0]);
    let charge = side * 1_000;
    let minimum = 64 * 100_000 * 10_000_000;
    assert_eq!(figures_of(&account)[2..8], [0, charge, 2 * charge, 0, minimum, 3 * charge]);
}

#[test]
fn short_lots_of_options_count_row_by_row() {
    let account = file(&[&[
        contract(1, 10),
        prompt(1, 1, 1),
        forward(1, 1, (-50, 0, 1, &NO_LOSS)),
        call(1, 1, 5, (-3, 0, 1, &NO_LOSS)),
        call(1, 1, 5, (2, 0, 1, &NO_LOSS)),
        put_option(1, 1, 5, (-4, 0, 1, &NO_LOSS)),
    ]]);
    assert_eq!(figures_of(&account)[6], 70);
}
