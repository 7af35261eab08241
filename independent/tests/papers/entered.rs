//! Request 2026-06 of document 02, write the file too.

use crate::builder::*;
use crate::refusals::sound;
use independent::entered::{entered, read, record, write, Entered, EnteredLeg};
use independent::generate;
use independent::{check, Refusal};

fn entries(records: &[Record]) -> Vec<Entered> {
    records.iter().map(entered).collect()
}

/// The bytes written for these records as entries, or the refusal.
fn written(records: &[Record]) -> Result<Vec<u8>, Refusal> {
    let mut lent = vec![7; 96 * records.len() + 50];
    let length = write(&entries(records), &mut lent)?;
    assert_eq!(lent[length..], vec![7; 96 * records.len() + 50 - length]);
    lent.truncate(length);
    Ok(lent)
}

fn refusal<T>(number: u8, record: usize) -> Result<T, Refusal> {
    Err(Refusal { number, record })
}

/// The sound account with two rates and a second row of contract 1.
fn all_kinds() -> Vec<Record> {
    let mut records = sound();
    records.insert(7, forward(1, 20, (1, 1, 1, &NO_LOSS)));
    records.extend([rate(2, 5, 6), rate(7, 8, 9)]);
    records
}

#[test]
fn fields_stand_where_01_has_them() {
    let leg = |tier, side, ratio| EnteredLeg { tier, side, ratio };
    let losses = std::array::from_fn(|scenario| scenario as i32 * 100 - 700);
    let told = [
        Entered::Contract { number: 3, short_option_rate: 500, unit: 100 },
        Entered::Prompt {
            contract: 3,
            tier: 2,
            day: 20_260_318,
            rate_in_spreads: 6,
            rate_outright: 7,
        },
        Entered::Row {
            contract: 3,
            class: 2,
            currency: 4,
            day: 20_260_318,
            strike: 4_000_000_000,
            lots: -3,
            delta: -5_200,
            value: 25,
            losses,
        },
        Entered::Spread {
            contract: 3,
            legs: 3,
            rate: 9,
            leg: [leg(1, 1, 100), leg(2, 2, 1), leg(2, 1, 300)],
        },
        Entered::Intercontract { first: 3, second: 4, percent: 85, ratios: [960, 10], tenths: 1 },
        Entered::Rate { currency: 4, spot: 1_500_000, adjustment: 50 },
    ];
    let wanted = [
        in_units(100, contract(3, 500)),
        prompt_at(3, 2, 20_260_318, 6, 7),
        in_currency(4, put_option(3, 20_260_318, 4_000_000_000, (-3, -5_200, 25, &losses))),
        spread(3, 9, &[(1, 'A', 100), (2, 'B', 1), (2, 'A', 300)]),
        entry_in_tenths(85, (3, 960), (4, 10)),
        rate(4, 1_500_000, 50),
    ];
    for (told, wanted) in told.iter().zip(wanted) {
        assert_eq!(record(told), wanted);
        assert_eq!(entered(&wanted), *told);
    }
}

#[test]
fn the_writer_puts_kinds_and_orders_right() {
    let account = file(&[&all_kinds()]);
    assert_eq!(written(&all_kinds()), Ok(account.clone()));
    let mut reversed = all_kinds();
    reversed.reverse();
    // The two rows of contract 1 keep their order of entry, which is turned about.
    let mut wanted = all_kinds();
    wanted.swap(6, 7);
    assert_eq!(written(&reversed), Ok(file(&[&wanted])));
    assert_eq!(written(&[]), Ok(vec![]));
}

#[test]
fn rows_spreads_and_entries_keep_the_order_of_entry() {
    let mut records = all_kinds();
    let rows = [1, 2, 3].map(|lots| forward(1, 10, (lots, 1, 1, &NO_LOSS)));
    let spreads = [1, 2, 3].map(|rate| pair(1, rate, 1, 3));
    let between = [entry(1, (2, 1), (1, 1)), entry(2, (1, 1), (2, 1)), entry(3, (2, 1), (1, 1))];
    for mixed in 0..3 {
        records.insert(0, between[2 - mixed]);
        records.insert(0, spreads[2 - mixed]);
        records.insert(0, rows[2 - mixed]);
    }
    let file = written(&records).unwrap();
    let of = |kind: u8, contract: u8| -> Vec<Record> {
        let records = file.chunks(96).filter(|record| record[0] == kind);
        let of_contract = records.filter(|record| kind == 5 || record[1] == contract);
        of_contract.map(|record| record.try_into().unwrap()).collect()
    };
    assert_eq!(of(3, 1)[..3], rows);
    assert_eq!(of(4, 1)[..3], spreads);
    assert_eq!(of(5, 0)[..3], between);
}

#[test]
fn a_prompt_is_ordered_by_contract_and_day_and_not_by_tier() {
    let records = [prompt(1, 1, 30), contract(1, 0), prompt(1, 2, 20), prompt(1, 3, 10)];
    // Days 10, 20 and 30 in tiers 3, 2 and 1: the second in the file has a tier below the first.
    assert_eq!(written(&records), refusal(8, 2));
    let sound = [prompt(1, 3, 30), contract(1, 0), prompt(1, 2, 20), prompt(1, 1, 10)];
    assert_eq!(written(&sound), Ok(file(&[&[sound[1], sound[3], sound[2], sound[0]]])));
}

#[test]
fn refusals_name_the_place_as_entered() {
    // The second of two clashing contracts, as entered, is the one refused.
    assert_eq!(written(&[contract(5, 1), contract(2, 0), contract(5, 2)]), refusal(8, 2));
    // Of two faults the first by the written order answers.
    let rows = [row_of(2, 9), prompt(1, 1, 10), contract(1, 0), row_of(1, 9)];
    assert_eq!(written(&rows), refusal(7, 3));
    assert_eq!(written(&[row_of(2, 9), contract(1, 0)]), refusal(7, 0));
    assert_eq!(written(&[contract(1, 0), contract(16, 0), prompt(1, 9, 1)]), refusal(6, 1));
    // A third leg of a spread of two legs is an unused byte.
    let account = [prompt(1, 1, 10), contract(1, 0), with(pair(1, 0, 1, 1), 16, 1)];
    assert_eq!(written(&account), refusal(5, 2));
    // 14 and 15.
    let rated = [in_currency(1, row_of(1, 10)), rate(2, 1, 0), prompt(1, 1, 10), contract(1, 0)];
    assert_eq!(written(&rated), refusal(14, 0));
}

fn row_of(contract: u8, day: u32) -> Record {
    forward(contract, day, (1, 1, 1, &NO_LOSS))
}

#[test]
fn the_33rd_prompt_of_the_written_order_is_refused() {
    let mut records: Vec<Record> = (1..=33).rev().map(|day| prompt(1, 1, day)).collect();
    records.push(contract(1, 0));
    // Day 33 was entered first.
    assert_eq!(written(&records), refusal(9, 0));
}

#[test]
fn more_than_640_entries_are_a_1_and_name_0() {
    let records = vec![contract(20, 0); 641];
    assert_eq!(written(&records), refusal(1, 0));
    assert_eq!(written(&records[..640]), refusal(6, 0));
}

#[test]
fn refusal_16_comes_last_and_writes_nothing() {
    let entries = entries(&all_kinds());
    let mut lent = vec![7; 96 * entries.len()];
    let short = lent.len() - 1;
    assert_eq!(write(&entries, &mut lent[..short]), refusal(16, 0));
    assert_eq!(write(&entries, &mut []), refusal(16, 0));
    assert!(lent.iter().all(|byte| *byte == 7));
    assert_eq!(write(&entries[1..], &mut []), refusal(7, 1));
    assert_eq!(write(&entries, &mut lent), Ok(short + 1));
    assert_eq!(write(&[], &mut []), Ok(0));
}

#[test]
fn writing_what_was_read_gives_the_same_bytes() {
    for index in 0..400 {
        let file = generate::account(2, index);
        match (check(&file), read(&file)) {
            (Ok(_), Ok(entries)) => {
                let mut lent = vec![0; file.len()];
                assert_eq!(write(&entries, &mut lent), Ok(file.len()));
                assert_eq!(lent, file);
            }
            (Err(refusal), read) => assert_eq!(read, Err(refusal)),
            _ => panic!("an accepted file is read"),
        }
    }
}

#[test]
fn reading_gives_back_what_was_entered() {
    let mut accepted = 0;
    for index in 0..400 {
        let entered = generate::entries(2, index);
        let mut lent = vec![0; 96 * entered.len()];
        match write(&entered, &mut lent) {
            Ok(length) => {
                let mut given = read(&lent[..length]).unwrap();
                assert_eq!(given.len(), entered.len());
                for entry in &entered {
                    let place = given.iter().position(|other| other == entry).unwrap();
                    given.remove(place);
                }
                accepted += 1;
            }
            Err(Refusal { number, .. }) => assert!(!(2..=4).contains(&number)),
        }
    }
    assert!(accepted > 100, "{accepted} accepted");
}
