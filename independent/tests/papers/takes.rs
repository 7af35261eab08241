//! Request 2026-11 of document 02: "Report with each delta book how many times some step moved some prompt's
//! unused delta towards zero."

use crate::builder::*;
use independent::joined;
use independent::{book, PairRefusal, Refusal};

/// P3: long 3.0001 and short 5 in one tier, A 2 to B 1.
fn p3() -> Vec<u8> {
    file(&[
        &[contract(0, 0)],
        &[prompt(0, 1, 1), prompt(0, 1, 2)],
        &net(0, 1, 30_001),
        &net(0, 2, -50_000),
        &[spread(0, 10_000, &[(1, 'A', 2), (1, 'B', 1)])],
    ])
}

#[test]
fn each_step_of_p3_takes_from_both_prompts() {
    assert_eq!(takes_of(&p3(), 0), 4);
}

#[test]
fn a_leg_that_takes_from_three_prompts_counts_three() {
    // Of 12 the leg takes 5, 4 and 3 of the long prompts, and the other leg 12 of one.
    let account = file(&[
        &[contract(1, 0), prompt(1, 1, 1), prompt(1, 1, 2), prompt(1, 1, 3), prompt(1, 1, 4)],
        &[prompt(1, 2, 5)],
        &net(1, 1, 50_000),
        &net(1, 2, -60_000),
        &net(1, 3, 40_000),
        &net(1, 4, 90_000),
        &net(1, 5, -120_000),
        &[pair(1, 0, 1, 2)],
    ]);
    assert_eq!(takes_of(&account, 1), 4);
}

#[test]
fn a_take_of_nothing_does_not_count() {
    // Steps that form nothing, prompts that a leg does not come to, and prompts without delta.
    let account = file(&[
        &[contract(1, 0), prompt(1, 1, 1), prompt(1, 1, 2), prompt(1, 1, 3), prompt(1, 2, 4)],
        &net(1, 1, 50_000),
        &net(1, 3, 50_000),
        &net(1, 4, -50_000),
        &[pair(1, 0, 1, 2), pair(1, 0, 1, 2), pair(1, 0, 1, 1)],
    ]);
    assert_eq!(takes_of(&account, 1), 2);
    // 0.0004 spreads at a tenth use nothing of the first contract.
    let account = file(&[
        &[contract(1, 0), contract(2, 0), prompt(1, 1, 1), prompt(2, 1, 1)],
        &net(1, 1, 1_000),
        &net(2, 1, -4),
        &[entry_in_tenths(0, (1, 1), (2, 10))],
    ]);
    assert_eq!(takes_of(&account, 16), 1);
}

#[test]
fn the_number_may_reach_prompts_and_legs() {
    // Two spreads share each prompt: 3 prompts of tier 1 used up by parts, with one more take each time
    // a leg stops inside a prompt.
    let account = file(&[
        &[contract(1, 0), prompt(1, 1, 1), prompt(1, 2, 2), prompt(1, 3, 3)],
        &net(1, 1, 30_000),
        &net(1, 2, -10_000),
        &net(1, 3, -20_000),
        &[pair(1, 0, 1, 2), pair(1, 0, 1, 3)],
    ]);
    assert_eq!(takes_of(&account, 1), 4);
    assert!(takes_of(&account, 1) <= 3 + 2 * 4);
}

#[test]
fn the_book_gains_the_number_at_its_end_and_10_asks_for_one_more() {
    let mut lent = [-777; 10];
    let refusal = Err(Refusal { number: 10, record: 8 });
    assert_eq!(book(&p3(), 0, &mut lent[..8]), refusal);
    assert_eq!(lent, [-777; 10]);
    assert_eq!(book(&p3(), 0, &mut lent), Ok(9));
    assert_eq!(lent, [30_001, 30_001, 0, -50_000, -15_002, -34_998, 15_000, 1, 4, -777]);
    assert_eq!(takes_of(&[], 16), 0);
    // A joined account's book too.
    let too_few = Err(PairRefusal { file: 0, number: 10, record: 8 });
    assert_eq!(joined::book(&p3(), &[], 0, &mut lent[..8]), too_few);
    assert_eq!(joined::book(&p3(), &[], 0, &mut lent[..9]), Ok(9));
}

#[test]
fn the_largest_book_has_161_numbers() {
    let prompts: Vec<Record> = (1..=32).map(|day| prompt(1, 1, day)).collect();
    let account = file(&[&[contract(1, 0)], &prompts, &vec![pair(1, 0, 1, 1); 32]]);
    let mut lent = [0; 161];
    assert_eq!(book(&account, 1, &mut lent[..160]), Err(Refusal { number: 10, record: 65 }));
    assert_eq!(book(&account, 1, &mut lent), Ok(161));
}
