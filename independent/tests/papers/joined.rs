//! Noon against the morning: which file supplies what, the refusals of a pair and their order, the
//! prompts handed back, and the call of 004.

use crate::builder::*;
use independent::joined::{book, call, cover_call, figures, join, prompts, uses, Cover, Part};
use independent::units::Amount;
use independent::PairRefusal;

/// A number that no answer here has.
const UNTOUCHED: i64 = -777;

/// The most that an amount may be.
const MOST: i64 = 1_000_000_000_000_000;

/// Contracts 1, 4 and 7, each with a prompt, a row and a spread, and two entries.
fn morning() -> Vec<u8> {
    file(&[
        &[contract(1, 10), contract(4, 40), contract(7, 70)],
        &[prompt(1, 1, 11), prompt(4, 1, 41), prompt(4, 2, 42), prompt(7, 1, 71)],
        &[long(1, 11, 1), long(4, 41, 2), long(4, 42, 1), long(7, 71, -3)],
        &[pair(1, 1, 1, 1), pair(4, 4, 1, 2), pair(7, 7, 1, 1)],
        &[entry(70, (7, 1), (1, 1)), entry(40, (4, 1), (7, 1))],
    ])
}

/// Contract 4 with other prompts and rows, contract 7 flat, and contract 5, which the morning lacks.
fn noon() -> Vec<u8> {
    file(&[
        &[contract(4, 41), contract(5, 50), contract(7, 71)],
        &[prompt(4, 3, 43), prompt(5, 1, 51)],
        &[long(4, 43, 6), long(4, 43, -1), long(5, 51, 9)],
        &[pair(5, 5, 1, 1)],
    ])
}

/// A row of these lots with a delta of 1.
fn long(contract: u8, day: u32, lots: i32) -> Record {
    forward(contract, day, (lots, 10_000, 1, &NO_LOSS))
}

/// An accepted file of so many records in contracts from this number on, without entries.
fn crowd(first: u8, size: usize) -> Vec<u8> {
    let mut parts = [vec![], vec![], vec![]];
    for number in first.. {
        let left = size - parts.iter().map(Vec::len).sum::<usize>();
        match left {
            0 => break,
            1 => parts[0].push(contract(number, 0)),
            _ => {
                parts[0].push(contract(number, 0));
                parts[1].push(prompt(number, 1, 1));
                parts[2].extend(vec![long(number, 1, 1); (left - 2).min(128)]);
            }
        }
    }
    let file = parts.concat().concat();
    assert_eq!((file.len(), refused(&file)), (96 * size, None));
    file
}

/// A file whose requirement is this amount: every scenario loses just as much.
fn requiring(amount: i64) -> Vec<u8> {
    let losing = |lots, value, ticks: i64| {
        forward(1, 1, (lots, 0, value, &[i32::try_from(ticks).unwrap(); 16]))
    };
    let mut rows =
        vec![losing(100_000, 10_000, 100_000); (amount / 100_000_000_000_000).try_into().unwrap()];
    rows.push(losing(100_000, 10_000, amount / 1_000_000_000 % 100_000));
    rows.push(losing(1, 10_000, amount / 10_000 % 100_000));
    rows.push(losing(1, 1, amount % 10_000));
    let file = file(&[&[contract(1, 0), prompt(1, 1, 1)], &rows]);
    assert_eq!(figures_of(&file).last(), Some(&amount));
    file
}

fn cover(last_call: i64, threshold: i64, collateral: i64) -> Cover {
    let [last_call, threshold, collateral] = [last_call, threshold, collateral].map(Amount);
    Cover { last_call, threshold, collateral }
}

fn refusal<T>(file: u8, number: u8, record: usize) -> Result<T, PairRefusal> {
    Err(PairRefusal { file, number, record })
}

/// A call that was made, or none.
fn called(amount: i64) -> Result<Amount, PairRefusal> {
    Ok(Amount(amount))
}

/// A file that 01 refuses with each number of 1 to 9, and the record named.
fn faulty() -> Vec<(Vec<u8>, u8, usize)> {
    let sound = [contract(1, 0), prompt(1, 1, 1), long(1, 1, 1), pair(1, 0, 1, 1)];
    let third = |record| file(&[&sound[..2], &[record]]);
    let files = vec![
        (vec![0; 61_441], 1, 0),
        (vec![0; 95], 2, 0),
        (third([7; 96]), 3, 2),
        (third(contract(2, 0)), 4, 2),
        (third(with(sound[2], 95, 1)), 5, 2),
        (third(with(sound[2], 20, 0)), 6, 2),
        (third(with(sound[2], 4, 2)), 7, 2),
        (third(with(sound[3], 13, 1)), 8, 2),
        (file(&[&sound[..2], &vec![sound[2]; 129]]), 9, 130),
    ];
    for (file, number, record) in &files {
        assert_eq!(refused(file), Some((*number, *record)));
    }
    files
}

#[test]
fn a_contract_comes_from_noon_if_noon_lists_it_and_the_entries_from_the_morning() {
    let joined = file(&[
        &[contract(1, 10), contract(4, 41), contract(5, 50), contract(7, 71)],
        &[prompt(1, 1, 11), prompt(4, 3, 43), prompt(5, 1, 51)],
        &[long(1, 11, 1), long(4, 43, 6), long(4, 43, -1), long(5, 51, 9)],
        &[pair(1, 1, 1, 1), pair(5, 5, 1, 1)],
        &[entry(70, (7, 1), (1, 1)), entry(40, (4, 1), (7, 1))],
    ]);
    assert_eq!(join(&morning(), &noon()), Ok(joined));
}

#[test]
fn the_joined_records_stand_in_the_order_of_01_and_of_their_file() {
    // Noon's contracts lie below, between and above those of the morning; rows and entries that could
    // be put in another order stay as they are.
    let morning = file(&[
        &[contract(3, 0), contract(8, 0), prompt(3, 2, 1), prompt(8, 1, 5)],
        &[long(3, 1, 5), long(3, 1, -4), long(8, 5, 2), long(8, 5, 1)],
        &[entry(9, (8, 1), (3, 1)), entry(1, (3, 2), (8, 3)), entry(9, (8, 1), (3, 1))],
    ]);
    let noon = file(&[
        &[contract(0, 0), contract(5, 0), contract(15, 0)],
        &[prompt(0, 8, 9), prompt(5, 1, 3), prompt(15, 1, 1)],
        &[long(0, 9, 7), long(5, 3, 8), long(5, 3, -8), long(15, 1, 1)],
    ]);
    let joined = file(&[
        &[contract(0, 0), contract(3, 0), contract(5, 0), contract(8, 0), contract(15, 0)],
        &[prompt(0, 8, 9), prompt(3, 2, 1), prompt(5, 1, 3), prompt(8, 1, 5), prompt(15, 1, 1)],
        &[long(0, 9, 7), long(3, 1, 5), long(3, 1, -4), long(5, 3, 8), long(5, 3, -8)],
        &[long(8, 5, 2), long(8, 5, 1), long(15, 1, 1)],
        &[entry(9, (8, 1), (3, 1)), entry(1, (3, 2), (8, 3)), entry(9, (8, 1), (3, 1))],
    ]);
    assert_eq!(join(&morning, &noon), Ok(joined));
}

#[test]
fn an_empty_file_takes_and_gives_nothing() {
    assert_eq!(join(&morning(), &[]), Ok(morning()));
    assert_eq!(join(&[], &noon()), Ok(noon()));
    assert_eq!(join(&[], &[]), Ok(vec![]));
    let mut lent = [UNTOUCHED; 2];
    assert_eq!(figures(&[], &[], &mut lent), Ok(1));
    assert_eq!(lent, [0, UNTOUCHED]);
    assert_eq!(book(&[], &[], 16, &mut lent[1..]), Ok(1));
    assert_eq!(call(&[], &[], cover(0, 0, 0)), called(0));
}

#[test]
fn a_noon_file_that_lists_every_contract_leaves_the_morning_its_entries() {
    let noon = file(&[&[contract(1, 0), contract(4, 0), contract(7, 0)]]);
    let entries = &morning()[14 * 96..];
    assert_eq!(join(&morning(), &noon), Ok([&noon, entries].concat()));
}

#[test]
fn a_contract_that_noon_lists_alone_is_flat() {
    let mut lent = [UNTOUCHED; 33];
    assert_eq!(figures(&morning(), &noon(), &mut lent), Ok(33));
    assert_eq!(lent[24..32], [7, 1, 0, 0, 0, 0, 0, 0]);
    assert_eq!(book(&morning(), &noon(), 7, &mut lent[..1]), Ok(1));
    let mut lent = [UNTOUCHED; 17];
    assert_eq!(book(&morning(), &noon(), 16, &mut lent), Ok(17));
    // Contracts 1, 4, 5 and 7 with nothing used, since 7 has no delta, and two entries.
    let nets = [[10_000, 0, 10_000], [50_000, 0, 50_000], [90_000, 0, 90_000], [0; 3]].concat();
    assert_eq!(lent[..], [nets, vec![0; 5]].concat());
}

#[test]
fn the_mornings_entries_run_over_the_deltas_of_noon() {
    // In the morning -3 of contract 7 meet 1 of contract 1 and 2 of contract 4; at noon contract 4 has
    // 1 and contract 7 has -5.
    let noon = file(&[
        &[contract(4, 0), contract(7, 0), prompt(4, 1, 1), prompt(7, 1, 1)],
        &[long(4, 1, 1), long(7, 1, -5)],
    ]);
    let mut lent = [UNTOUCHED; 15];
    assert_eq!(book(&morning(), &noon, 16, &mut lent), Ok(14));
    let nets = [[10_000, 10_000, 0], [10_000, 10_000, 0], [-50_000, -20_000, -30_000]].concat();
    assert_eq!(lent[..9], nets);
    assert_eq!(lent[9..], [0, 10_000, 10_000, 0, 4, UNTOUCHED]);
    let mut lent = [UNTOUCHED; 13];
    assert_eq!(uses(&morning(), &noon, 16, &mut lent), Ok(12));
    let steps = [[0; 3], [10_000, 0, -10_000], [0, 10_000, -10_000], [0; 3]].concat();
    assert_eq!(lent[..], [steps, vec![UNTOUCHED]].concat());
}

#[test]
fn figures_books_and_uses_are_those_of_the_joined_file() {
    let joined = join(&morning(), &noon()).unwrap();
    let mut lent = [UNTOUCHED; 40];
    assert_eq!(figures(&morning(), &noon(), &mut lent), Ok(33));
    assert_eq!(lent[..33], figures_of(&joined));
    assert_eq!(lent[33..], [UNTOUCHED; 7]);
    for question in [1, 4, 5, 7, 16] {
        let mut lent = [UNTOUCHED; 40];
        let written = book(&morning(), &noon(), question, &mut lent).unwrap();
        let takes = takes_of(&joined, question);
        assert_eq!(lent[..written], [book_of(&joined, question), vec![takes]].concat());
        assert_eq!(lent[written..], [UNTOUCHED; 40][written..]);
        let [mut pair, mut one] = [[UNTOUCHED; 40]; 2];
        let written = uses(&morning(), &noon(), question, &mut pair);
        assert_eq!(written.ok(), independent::uses(&joined, question, &mut one).ok());
        assert_eq!(pair, one);
    }
}

#[test]
fn the_printed_account_may_come_from_either_file() {
    let printed = crate::reckoned::printed();
    let figures_of_3 = [3, 13, 383_250, 0, 400, 0, 1_500, 383_650];
    let mut lent = [0; 17];
    assert_eq!(figures(&printed, &requiring(5), &mut lent), Ok(17));
    assert_eq!(lent[8..], [&figures_of_3[..], &[383_655]].concat());
    assert_eq!(figures(&requiring(5), &printed, &mut lent), Ok(17));
    assert_eq!(lent[8..], [&figures_of_3[..], &[383_655]].concat());
    // The morning's contract 1 is replaced, not added to.
    assert_eq!(figures(&requiring(7), &requiring(5), &mut lent), Ok(9));
    assert_eq!(lent[..9], [1, 1, 5, 0, 0, 0, 0, 5, 5]);
}

#[test]
fn each_file_is_refused_by_1_to_9_and_the_refusal_says_which() {
    for (faulty, number, record) in faulty() {
        for (morning, noon, file) in [(&faulty, &noon(), 1), (&morning(), &faulty, 2)] {
            assert_eq!(join(morning, noon), refusal(file, number, record));
            // Whatever is asked, and however little is lent.
            assert_eq!(figures(morning, noon, &mut []), refusal(file, number, record));
            assert_eq!(book(morning, noon, 99, &mut []), refusal(file, number, record));
            assert_eq!(uses(morning, noon, 99, &mut []), refusal(file, number, record));
            assert_eq!(call(morning, noon, cover(-1, 0, 0)), refusal(file, number, record));
        }
    }
}

#[test]
fn the_morning_answers_before_noon_whatever_the_numbers() {
    for (morning, number, record) in faulty() {
        for (noon, _, _) in faulty() {
            assert_eq!(join(&morning, &noon), refusal(1, number, record));
        }
        let with_entry = file(&[&[contract(1, 0), contract(2, 0), entry(1, (1, 1), (2, 1))]]);
        assert_eq!(join(&morning, &with_entry), refusal(1, number, record));
    }
}

#[test]
fn refusal_12_names_the_first_entry_of_noon() {
    let contracts = [contract(1, 0), contract(2, 0)];
    let entries = [entry(1, (1, 1), (2, 1)), entry(2, (2, 1), (1, 1))];
    let noon = file(&[&contracts, &[prompt(1, 1, 1)], &entries]);
    let (morning, twelve) = (morning(), 12);
    assert_eq!(join(&morning, &noon), refusal(2, twelve, 3));
    assert_eq!(figures(&morning, &noon, &mut []), refusal(2, twelve, 3));
    assert_eq!(book(&morning, &noon, 99, &mut []), refusal(2, twelve, 3));
    assert_eq!(uses(&morning, &noon, 99, &mut []), refusal(2, twelve, 3));
    assert_eq!(call(&morning, &noon, cover(-1, 0, 0)), refusal(2, twelve, 3));
}

#[test]
fn a_noon_entry_of_a_contract_that_noon_does_not_list_is_a_7() {
    // The morning lists 1, 4 and 7, but each file is checked by itself.
    let noon = file(&[&[contract(1, 0), contract(4, 0), entry(1, (1, 1), (7, 1))]]);
    assert_eq!(join(&morning(), &noon), refusal(2, 7, 2));
    // A sound entry before it is a 12 only after all of noon is accepted.
    let sound = entry(1, (1, 1), (4, 1));
    let noon = file(&[&[contract(1, 0), contract(4, 0), sound, entry(1, (1, 1), (7, 1))]]);
    assert_eq!(join(&morning(), &noon), refusal(2, 7, 3));
    let noon = file(&[&[contract(1, 0), contract(4, 0)], &vec![sound; 33]]);
    assert_eq!(join(&morning(), &noon), refusal(2, 9, 34));
}

#[test]
fn refusal_13_counts_joined_records() {
    let morning = crowd(0, 320);
    assert_eq!(join(&morning, &crowd(8, 320)).map(|file| file.len()), Ok(61_440));
    for (size, joined) in [(321, 641), (640, 960)] {
        let noon = crowd(8, size);
        assert_eq!(join(&morning, &noon), refusal(0, 13, joined));
        assert_eq!(figures(&morning, &noon, &mut []), refusal(0, 13, joined));
        assert_eq!(book(&morning, &noon, 99, &mut []), refusal(0, 13, joined));
        assert_eq!(uses(&morning, &noon, 99, &mut []), refusal(0, 13, joined));
        assert_eq!(call(&morning, &noon, cover(-1, 0, 0)), refusal(0, 13, joined));
    }
    assert_eq!(join(&crowd(0, 640), &crowd(8, 640)), refusal(0, 13, 1_280));
    // What noon replaces does not count: 120 records of contract 4, then all records of the morning.
    assert_eq!(join(&crowd(0, 640), &crowd(4, 640)), refusal(0, 13, 1_160));
    assert_eq!(join(&crowd(0, 640), &crowd(0, 640)), Ok(crowd(0, 640)));
    assert_eq!(join(&crowd(0, 640), &crowd(0, 638)).map(|file| file.len()), Ok(96 * 638));
}

#[test]
fn the_mornings_entries_count_among_the_joined_records() {
    let entries = vec![entry(1, (0, 1), (1, 1)); 32];
    let morning = [crowd(0, 288), entries.concat()].concat();
    assert_eq!(join(&morning, &crowd(8, 320)).map(|file| file.len()), Ok(61_440));
    assert_eq!(join(&morning, &crowd(8, 321)), refusal(0, 13, 641));
}

#[test]
fn refusal_12_answers_before_13() {
    let noon = [crowd(8, 639), entry(1, (8, 1), (9, 1)).to_vec()].concat();
    assert_eq!(join(&crowd(0, 640), &noon), refusal(2, 12, 639));
}

#[test]
fn refusal_21_names_the_joined_record_count() {
    for amount in [-1, MOST + 1, i64::MIN, i64::MAX] {
        for outside in [cover(amount, 0, 0), cover(0, amount, 0), cover(0, 0, amount)] {
            assert_eq!(call(&morning(), &noon(), outside), refusal(0, 21, 15));
        }
        assert_eq!(call(&[], &[], cover(amount, amount, amount)), refusal(0, 21, 0));
    }
    // No amount makes another pass.
    assert_eq!(call(&[], &[], cover(MOST + 1, -1, 0)), refusal(0, 21, 0));
}

#[test]
fn every_amount_from_0_to_the_most_passes() {
    for amount in [0, 1, MOST - 1, MOST] {
        for inside in [cover(amount, 0, 0), cover(0, amount, 0), cover(0, 0, amount)] {
            assert_eq!(call(&[], &[], inside), called(0));
        }
    }
    // A requirement may be above the most that an amount may be.
    let noon = requiring(MOST + 1);
    assert_eq!(call(&morning(), &noon, cover(MOST, 0, MOST)), called(1));
    assert_eq!(call(&morning(), &noon, cover(0, MOST, 0)), called(MOST + 1));
    assert_eq!(call(&morning(), &noon, cover(MOST, 0, MOST + 1)), refusal(0, 21, 27));
}

#[test]
fn refusals_11_and_10_name_the_joined_record_count() {
    let (morning, noon) = (morning(), noon());
    let mut lent = [UNTOUCHED; 160];
    for question in [0, 2, 15, 17, 4 + 256, 16 + 256, 5 + (1 << 32), 1 << 63, u64::MAX] {
        assert_eq!(book(&morning, &noon, question, &mut lent), refusal(0, 11, 15));
        assert_eq!(uses(&morning, &noon, question, &mut lent), refusal(0, 11, 15));
        assert_eq!(book(&morning, &noon, question, &mut []), refusal(0, 11, 15));
    }
    assert_eq!(figures(&morning, &noon, &mut lent[..32]), refusal(0, 10, 15));
    assert_eq!(book(&morning, &noon, 5, &mut lent[..5]), refusal(0, 10, 15));
    assert_eq!(uses(&morning, &noon, 5, &mut lent[..1]), refusal(0, 10, 15));
    assert_eq!(book(&morning, &noon, 16, &mut lent[..16]), refusal(0, 10, 15));
    assert_eq!(lent, [UNTOUCHED; 160]);
    assert_eq!(book(&morning, &noon, 5, &mut lent[..6]), Ok(6));
    assert_eq!(lent[..7], [90_000, 0, 90_000, 0, 0, 0, UNTOUCHED]);
}

#[test]
fn prompts_are_handed_back_from_the_file_that_supplies_them() {
    let (morning, noon) = (morning(), noon());
    let part = |file, first, records| Part { file, first, records };
    assert_eq!(prompts(&morning, &noon, 1), part(1, 3, 1));
    assert_eq!(prompts(&morning, &noon, 4), part(2, 3, 1));
    assert_eq!(prompts(&morning, &noon, 5), part(2, 4, 1));
    assert_eq!(prompts(&morning, &[], 4), part(1, 4, 2));
    assert_eq!(prompts(&[], &noon, 4), part(2, 3, 1));
    // Noon lists contract 7 without prompts.
    assert_eq!(prompts(&morning, &noon, 7), part(2, 0, 0));
    let alone = file(&[&[contract(9, 0)]]);
    assert_eq!(prompts(&alone, &noon, 9), part(1, 0, 0));
    // Neither lists these.
    for number in [0, 2, 15, 16, 1 + 256, 4 + 256, 5 + (1 << 32), 1 << 63, u64::MAX] {
        assert_eq!(prompts(&morning, &noon, number), part(0, 0, 0), "contract {number}");
    }
}

#[test]
fn a_refused_pair_hands_back_no_prompts() {
    let nothing = Part { file: 0, first: 0, records: 0 };
    for (faulty, _, _) in faulty() {
        assert_eq!(prompts(&faulty, &noon(), 4), nothing);
        assert_eq!(prompts(&morning(), &faulty, 1), nothing);
    }
    let contracts = [contract(1, 0), contract(2, 0), prompt(1, 1, 1)];
    let with_entry = file(&[&contracts, &[entry(1, (1, 1), (2, 1))]]);
    assert_eq!(prompts(&morning(), &with_entry, 1), nothing);
    assert_eq!(prompts(&crowd(0, 320), &crowd(8, 321), 0), nothing);
    assert_eq!(prompts(&crowd(0, 320), &crowd(8, 320), 0), Part { file: 1, first: 3, records: 1 });
}

#[test]
fn both_comparisons_of_the_call_are_strict() {
    let noon = requiring(1_000);
    let called_on = |cover| call(&[], &noon, cover);
    assert_eq!(called_on(cover(600, 399, 999)), called(1));
    assert_eq!(called_on(cover(600, 400, 999)), called(0));
    assert_eq!(called_on(cover(600, 401, 999)), called(0));
    assert_eq!(called_on(cover(600, 399, 1_000)), called(0));
    assert_eq!(called_on(cover(600, 399, 1_001)), called(0));
    assert_eq!(called_on(cover(600, 400, 1_000)), called(0));
    // The call is over the collateral, not over the last call.
    assert_eq!(called_on(cover(600, 399, 0)), called(1_000));
    assert_eq!(called_on(cover(0, 0, 250)), called(750));
    // A requirement of nothing is never called.
    assert_eq!(call(&[], &[], cover(0, 0, 0)), called(0));
}

#[test]
fn last_call_and_threshold_together_pass_the_most_of_either() {
    let called_on = |requirement, cover| call(&[], &requiring(requirement), cover);
    assert_eq!(called_on(2 * MOST, cover(MOST, MOST, 0)), called(0));
    assert_eq!(called_on(2 * MOST + 1, cover(MOST, MOST, MOST)), called(MOST + 1));
    assert_eq!(called_on(2 * MOST, cover(MOST, MOST - 1, 0)), called(2 * MOST));
}

#[test]
fn the_requirement_is_the_total_of_the_joined_account() {
    // A short option each: 900 of contract 1 and 500 of contract 3 in the morning, 40 of contract 1
    // at noon.
    let short = |number| put_option(number, 1, 1, (-1, 0, 1, &NO_LOSS));
    let morning = file(&[
        &[contract(1, 900), contract(3, 500), prompt(1, 1, 1), prompt(3, 1, 1)],
        &[short(1), short(3)],
    ]);
    let noon = file(&[&[contract(1, 40), prompt(1, 1, 1), short(1)]]);
    assert_eq!(call(&morning, &[], cover(0, 0, 0)), called(1_400));
    assert_eq!(call(&[], &noon, cover(0, 0, 0)), called(40));
    assert_eq!(call(&morning, &noon, cover(0, 0, 0)), called(540));
    assert_eq!(call(&morning, &noon, cover(540, 0, 0)), called(0));
    assert_eq!(call(&morning, &noon, cover(539, 0, 39)), called(501));
}

#[test]
fn the_thresholds_of_004_are_exceeded_as_it_says() {
    // 004's CMF 1 to 5, in hundredths: initial margin, threshold, variation, and whether exceeded.
    let whole = 100;
    for (margin, threshold, variation, exceeded) in [
        (35_000_000, 35_000_000 / 4, 10_000_000, true),
        (40_000_000, 40_000_000 / 4, 4_000_000, false),
        (400_000, 250_000, 200_000, false),
        (800_000, 250_000, 300_000, true),
        (100_000_000, 12_500_000, 20_000_000, true),
    ] {
        let requirement = (margin + variation) * whole;
        let asked = call(&[], &requiring(requirement), cover(margin * whole, threshold * whole, 0));
        assert_eq!(asked, called(if exceeded { requirement } else { 0 }));
    }
}

#[test]
fn the_five_levels_of_004_are_called_as_it_says() {
    // 1,000 deposited, a threshold of 250, collateral of 1,500.
    let level = |requirement| cover_call(Amount(requirement), cover(1_000, 250, 1_500)).0;
    assert_eq!(level(1_000), 0);
    assert_eq!(level(900), 0);
    assert_eq!(level(1_200), 0);
    assert_eq!(level(1_400), 0);
    // "Level 5: requires to cover the difference between the IDM amount and the level of deposited
    // collateral."
    assert_eq!(level(1_800), 300);
}
