//! Request 2026-08 of document 02, the whole book overnight: "Take a run of accounts, each with its
//! length, in one call, and answer each as a call of its own would, refusals included."

use crate::builder::*;
use crate::reckoned::printed;
use independent::generate::{self, Random};
use independent::run::{answers, run, PLACE};
use independent::{figures, Refusal};

/// A number that no answer here has.
const UNTOUCHED: i64 = -777;

/// The bytes of a run and its lengths.
fn of(accounts: &[Vec<u8>]) -> (Vec<u8>, Vec<u64>) {
    (accounts.concat(), accounts.iter().map(|account| account.len() as u64).collect())
}

fn refusal(number: u8) -> Result<usize, Refusal> {
    Err(Refusal { number, record: 0 })
}

#[test]
fn each_account_has_a_place_of_129_numbers_and_one_of_two() {
    assert_eq!(PLACE, 131);
    let refused = file(&[&[contract(1, 0), prompt(2, 1, 1)]]);
    let (bytes, lengths) = of(&[printed(), refused, vec![], vec![0; 95]]);
    let mut lent = vec![UNTOUCHED; 4 * 131 + 3];
    assert_eq!(run(&bytes, &lengths, &mut lent), Ok(4));
    let place = |account: usize| &lent[131 * account..131 * (account + 1)];
    assert_eq!(place(0)[..9], [3, 13, 383_250, 0, 400, 0, 1_500, 383_650, 383_650]);
    assert_eq!(place(0)[9..129], [UNTOUCHED; 120]);
    assert_eq!(place(0)[129..], [0, 0]);
    // "A refused account's figures are not written."
    assert_eq!(place(1)[..129], [UNTOUCHED; 129]);
    assert_eq!(place(1)[129..], [7, 1]);
    // An empty account is accepted with total 0.
    assert_eq!(place(2)[..2], [0, UNTOUCHED]);
    assert_eq!(place(2)[129..], [0, 0]);
    assert_eq!(place(3)[129..], [2, 0]);
    assert_eq!(lent[4 * 131..], [UNTOUCHED; 3]);
}

#[test]
fn sixteen_contracts_fill_their_place() {
    let contracts: Vec<Record> = (0..16).map(|number| contract(number, 0)).collect();
    let (bytes, lengths) = of(&[file(&[&contracts])]);
    let mut lent = [UNTOUCHED; 131];
    assert_eq!(run(&bytes, &lengths, &mut lent), Ok(1));
    assert_eq!(lent[120..], [15, 1, 0, 0, 0, 0, 0, 0, 0, 0, 0]);
}

#[test]
fn refusal_17_is_for_lengths_that_do_not_add_up() {
    let (bytes, lengths) = of(&[printed(), printed()]);
    let mut lent = [UNTOUCHED; 262];
    let length = printed().len() as u64;
    assert_eq!(lengths, [length, length]);
    for wrong in [
        vec![],
        vec![length],
        vec![length, length + 1],
        vec![length, length - 1],
        vec![length, length, 1],
        // These add up only where the sum wraps around.
        vec![u64::MAX, 2 * length + 1],
        vec![length, u64::MAX, length + 1],
        vec![1 << 63, 1 << 63, 2 * length],
    ] {
        assert_eq!(run(&bytes, &wrong, &mut lent), refusal(17), "{wrong:?}");
    }
    assert_eq!(lent, [UNTOUCHED; 262]);
    assert_eq!(run(&[], &[1], &mut lent), refusal(17));
}

#[test]
fn refusal_10_is_for_all_places_and_comes_after_17() {
    let (bytes, lengths) = of(&[printed(), vec![0; 95]]);
    let mut lent = [UNTOUCHED; 262];
    assert_eq!(run(&bytes, &lengths, &mut lent[..261]), refusal(10));
    assert_eq!(run(&bytes, &lengths, &mut []), refusal(10));
    assert_eq!(run(&bytes, &[1], &mut []), refusal(17));
    assert_eq!(lent, [UNTOUCHED; 262]);
    assert_eq!(run(&bytes, &lengths, &mut lent), Ok(2));
}

#[test]
fn a_run_of_no_accounts_needs_nothing() {
    assert_eq!(run(&[], &[], &mut []), Ok(0));
    assert_eq!(run(&[], &[0, 0], &mut [0; 262]), Ok(2));
    assert_eq!(run(&[0], &[], &mut []), refusal(17));
}

#[test]
fn a_cut_elsewhere_makes_other_accounts() {
    // The second account begins one byte early.
    let (bytes, _) = of(&[printed(), printed()]);
    let length = printed().len() as u64;
    let mut lent = [UNTOUCHED; 262];
    assert_eq!(run(&bytes, &[length - 1, length + 1], &mut lent), Ok(2));
    assert_eq!([&lent[129..131], &lent[260..]].concat(), [2, 0, 2, 0]);
}

#[test]
fn each_account_is_answered_as_a_call_of_its_own() {
    for index in 0..150 {
        let of = generate::run(2, index);
        let Ok(told) = answers(&of.bytes, &of.lengths, PLACE * of.lengths.len()) else { continue };
        let mut left = &of.bytes[..];
        for (length, answer) in of.lengths.iter().zip(told) {
            let (account, after) = left.split_at(*length as usize);
            left = after;
            let mut lent = [0; 129];
            let own = figures(account, &mut lent).map(|written| lent[..written].to_vec());
            assert_eq!(answer, own);
        }
    }
}

#[test]
fn a_seed_and_an_index_always_give_the_same_run() {
    let runs = |seed| (0..60).map(|index| generate::run(seed, index)).collect::<Vec<_>>();
    assert_eq!(runs(2), runs(2));
    assert_ne!(runs(2), runs(3));
    let mut random = Random::new(2, 0);
    assert!((0..100).any(|_| generate::lent(&mut random, 262) == 261));
}
