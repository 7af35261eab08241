//! Request 2026-12 of document 02, figures for the risk committee.

use crate::builder::*;
use crate::reckoned::{largest, printed};
use independent::committee::{figures, NUMBERS};
use independent::Refusal;

const UNTOUCHED: i64 = -777;

/// The committee's numbers of these accounts.
fn told(accounts: &[Vec<u8>]) -> Vec<i64> {
    let lengths: Vec<u64> = accounts.iter().map(|account| account.len() as u64).collect();
    let mut lent = vec![UNTOUCHED; NUMBERS + 1];
    assert_eq!(figures(&accounts.concat(), &lengths, &mut lent), Ok(24));
    assert_eq!(lent.pop(), Some(UNTOUCHED));
    lent
}

/// An account with this margin.
fn margin(amount: i32) -> Vec<u8> {
    let row = forward(1, 1, (1, 0, 1, &[amount; 16]));
    file(&[&[contract(1, 0), prompt(1, 1, 1), row]])
}

#[test]
fn counts_sums_largest_and_mean() {
    let kind = file(&[&[contract(1, 0), [9; 96]]]);
    let accounts =
        [vec![0; 95], margin(7), margin(10), kind, margin(10), vec![0; 95], vec![], margin(1)];
    let mut refusals = [0; 15];
    refusals[1] = 2;
    refusals[2] = 1;
    let wanted = [vec![5, 3], refusals.to_vec(), vec![28, 10, 2, 0, 0, 5, 3]].concat();
    assert_eq!(told(&accounts), wanted);
}

#[test]
fn the_lowest_place_counts_refused_accounts_and_holds_the_largest() {
    let place = |accounts: &[Vec<u8>]| told(accounts)[18..20].to_vec();
    assert_eq!(place(&[margin(5), margin(5)]), [5, 0]);
    assert_eq!(place(&[vec![0; 1], margin(5), margin(5)]), [5, 1]);
    assert_eq!(place(&[margin(4), vec![0; 1], margin(5)]), [5, 2]);
    // All margins 0: the first accepted account.
    assert_eq!(place(&[vec![0; 1], vec![], margin(-3)]), [0, 1]);
}

#[test]
fn with_none_accepted_largest_place_mean_and_remainder_are_0() {
    assert_eq!(told(&[]), [0; 24]);
    let none = told(&[vec![0; 1], vec![0; 61_441]]);
    assert_eq!(none[..4], [0, 2, 1, 1]);
    assert_eq!(none[4..], [0; 20]);
}

#[test]
fn an_account_with_credit_counts_once() {
    let mut losses = NO_LOSS;
    losses[2..4].copy_from_slice(&[800, 800]);
    let account = file(&[
        &[contract(1, 0), contract(2, 0), prompt(1, 1, 1), prompt(2, 1, 1)],
        &[
            forward(1, 1, (1, 10_000, 1, &losses)),
            forward(2, 1, (-1, 10_000, 1, &losses.map(|of| -of))),
        ],
        &[entry(50, (1, 1), (2, 1))],
    ]);
    assert_eq!(figures_of(&account)[5] + figures_of(&account)[13], 800);
    assert_eq!(told(&[account.clone(), margin(1), account])[20], 2);
    assert_eq!(told(&[printed()])[20], 0);
}

#[test]
fn a_minimum_counts_where_it_is_above_the_risk_after_its_floor() {
    let short = |rate: u32, loss: i32| {
        let row = call(1, 1, 5, (-1, 0, 1, &[-loss; 16]));
        file(&[&[contract(1, rate), contract(2, rate), prompt(1, 1, 1), row]])
    };
    let counted = |rate, loss| told(&[short(rate, loss)])[21];
    assert_eq!(counted(500, 499), 1);
    assert_eq!(counted(500, 500), 0);
    assert_eq!(counted(500, 501), 0);
    // A risk below 0 is compared as 0, which a minimum of 0 is not above.
    assert_eq!(counted(0, -5), 0);
    assert_eq!(counted(1, -5), 1);
    // Contracts count, not accounts.
    let two = file(&[
        &[contract(1, 9), contract(2, 9), prompt(1, 1, 1), prompt(2, 1, 1)],
        &[1, 2].map(|number| call(number, 1, 5, (-1, 0, 1, &NO_LOSS))),
    ]);
    assert_eq!(told(&[two.clone(), two])[21], 4);
}

#[test]
fn mean_and_remainder() {
    assert_eq!(told(&[margin(10), margin(10), margin(1)])[22..], [7, 0]);
    assert_eq!(told(&[margin(10), margin(10), margin(0)])[22..], [6, 2]);
}

#[test]
fn a_hundred_of_the_largest_accounts_add_up() {
    let each = 5 * 126 * 100_000_000_000_000;
    let numbers = told(&vec![largest(); 100]);
    assert_eq!(numbers[17..20], [100 * each, each, 0]);
    assert_eq!(numbers[22..], [each, 0]);
}

#[test]
fn refusals_19_17_and_10_in_this_order() {
    let refusal = |number| Err(Refusal { number, record: 0 });
    let mut lent = [UNTOUCHED; 24];
    assert_eq!(figures(&[], &[0; 100], &mut lent), Ok(24));
    assert_eq!(lent[0], 100);
    let mut lent = [UNTOUCHED; 24];
    assert_eq!(figures(&[], &[0; 101], &mut lent), refusal(19));
    assert_eq!(figures(&[], &[1; 101], &mut []), refusal(19));
    assert_eq!(figures(&[], &[1; 100], &mut []), refusal(17));
    assert_eq!(figures(&[], &[u64::MAX, 1], &mut lent), refusal(17));
    assert_eq!(figures(&[], &[0; 100], &mut lent[..23]), refusal(10));
    assert_eq!(lent, [UNTOUCHED; 24]);
}
