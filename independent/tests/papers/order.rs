//! Which refusal answers where several conditions hold.

use crate::builder::*;
use independent::{book, figures, Refusal};

/// A file whose last record is a row of contract 1 for which the conditions of these refusals of 4 to
/// 9 hold, and no others; with the place of that row.
fn row_with(faults: &[u8]) -> (Vec<u8>, usize) {
    let has = |number| faults.contains(&number);
    let mut records = vec![contract(1, 0), contract(2, 0), prompt(1, 1, 10), prompt(2, 1, 10)];
    let rows = if has(9) { 128 } else { 127 };
    records.extend(vec![forward(1, 10, (1, 1, 1, &NO_LOSS)); rows]);
    if has(8) {
        records.push(forward(2, 10, (1, 1, 1, &NO_LOSS)));
    }
    if has(4) {
        records.push(pair(1, 0, 1, 1));
    }
    let mut row = forward(1, 10, (1, 1, 1, &NO_LOSS));
    if has(5) {
        row[95] = 1;
    }
    if has(6) {
        row[20] = 0;
    }
    if has(7) {
        row[4] = 11;
    }
    records.push(row);
    (file(&[&records]), records.len() - 1)
}

#[test]
fn a_row_with_one_fault_gets_that_refusal() {
    assert_eq!(refused(&row_with(&[]).0), None);
    for number in 4..=9 {
        let (account, place) = row_with(&[number]);
        assert_eq!(refused(&account), Some((number, place)));
    }
}

#[test]
fn within_a_record_the_lower_number_answers() {
    for lower in 4..=9 {
        for higher in lower + 1..=9 {
            let (account, place) = row_with(&[lower, higher]);
            assert_eq!(refused(&account), Some((lower, place)), "{lower} and {higher}");
        }
        let all: Vec<u8> = (lower..=9).collect();
        let (account, place) = row_with(&all);
        assert_eq!(refused(&account), Some((lower, place)));
    }
}

#[test]
fn an_unknown_kind_answers_before_a_lower_kind_and_before_its_bytes() {
    let account = file(&[&[contract(1, 0), [0; 96]]]);
    assert_eq!(refused(&account), Some((3, 1)));
    let account = file(&[&[contract(1, 0), [255; 96]]]);
    assert_eq!(refused(&account), Some((3, 1)));
}

/// An entry of contracts 1 and 2 that has a fault of 3 to 8 or none; 4 is a contract after entries.
fn entry_with(fault: u8) -> Record {
    let sound = entry(50, (1, 1), (2, 1));
    match fault {
        3 => with(sound, 0, 7),
        4 => contract(3, 0),
        5 => with(sound, 9, 1),
        6 => with(sound, 3, 101),
        7 => with(sound, 2, 9),
        8 => with(sound, 2, 1),
        _ => sound,
    }
}

/// A file in which one record has the first fault and the next the second. For 9 the record is the
/// 33rd entry.
fn one_after_the_other(first: u8, second: u8) -> (Vec<u8>, usize) {
    let before = match (first, second) {
        (9, _) => 32,
        (3 | 4, 9) => 32,
        (_, 9) => 31,
        _ => 1,
    };
    let mut records = vec![contract(1, 0), contract(2, 0)];
    records.extend(vec![entry_with(0); before]);
    records.extend([entry_with(first), entry_with(second)]);
    (file(&[&records]), 2 + before)
}

#[test]
fn across_records_the_lower_record_answers_whatever_its_number() {
    for first in 3..=9 {
        for second in 3..=9 {
            let (account, place) = one_after_the_other(first, second);
            assert_eq!(refused(&account), Some((first, place)), "{first}, then {second}");
        }
    }
}

#[test]
fn length_answers_before_every_record() {
    for fault in 3..=9 {
        let (mut account, _) = one_after_the_other(fault, fault);
        account.push(0);
        assert_eq!(refused(&account), Some((2, 0)), "2 and {fault}");
        account.resize(61_440 + 96, 0);
        assert_eq!(refused(&account), Some((1, 0)), "1 and {fault}");
    }
}

#[test]
fn refusal_1_answers_before_2() {
    assert_eq!(refused(&[0; 61_441]), Some((1, 0)));
    assert_eq!(refused(&[0; 61_439]), Some((2, 0)));
}

#[test]
fn every_fault_of_a_file_answers_before_11_and_10() {
    let mut faulty = vec![(vec![0; 61_441], (1, 0)), (vec![0; 95], (2, 0))];
    for fault in 3..=9 {
        let (account, place) = one_after_the_other(fault, 0);
        faulty.push((account, (fault, place)));
    }
    for (account, (number, record)) in faulty {
        let refusal = Err(Refusal { number, record });
        // Contract 7 is not listed, and no number is lent.
        assert_eq!(book(&account, 7, &mut []), refusal);
        assert_eq!(book(&account, 16, &mut []), refusal);
        assert_eq!(book(&account, 7, &mut [0; 160]), refusal);
        assert_eq!(figures(&account, &mut []), refusal);
    }
}

#[test]
fn refusal_11_answers_before_10() {
    let account = file(&[&[contract(1, 0), contract(2, 0), prompt(1, 1, 10)]]);
    assert_eq!(book(&account, 7, &mut []), Err(Refusal { number: 11, record: 3 }));
    assert_eq!(book(&account, 1, &mut []), Err(Refusal { number: 10, record: 3 }));
}

#[test]
fn orders_that_a_quick_reading_misses() {
    let contracts = [contract(1, 0), contract(2, 0)];
    // An unlisted contract with itself.
    assert_eq!(refused(&file(&[&contracts, &[entry(50, (7, 1), (7, 1))]])), Some((7, 2)));
    // A 33rd prompt on a day that stands already.
    let mut prompts: Vec<Record> = (1..=32).map(|day| prompt(1, 1, day)).collect();
    prompts.push(prompt(1, 1, 32));
    assert_eq!(refused(&file(&[&contracts, &prompts])), Some((8, 2 + 32)));
    // A prompt of an unlisted contract in a tier that there is not.
    assert_eq!(refused(&file(&[&contracts, &[prompt(7, 9, 1)]])), Some((6, 2)));
    // A contract listed by a later record alone.
    assert_eq!(refused(&file(&[&[contract(1, 0), prompt(2, 1, 1), contract(2, 0)]])), Some((7, 1)));
}
