//! Pairs of a morning and a noon file: mostly noon has contracts of the morning as they stood, changed
//! or closed, and new ones; some pairs are unrelated, empty, crowded, damaged, or noise.

use super::converted;
use super::random::Random;
use super::rates;
use super::values::{lots, rate, taste};
use super::write::{put, Bytes};
use super::{any, damaged, sound};
use crate::format::*;

/// The bytes of a morning and of a noon file.
pub fn files(random: &mut Random) -> (Vec<u8>, Vec<u8>) {
    let sort = random.below(100);
    let converted = (33..=36).contains(&sort);
    let (morning, mut noon) = match sort {
        0..=5 => return (any(random), any(random)),
        6..=10 => (sound::account(random), of_contracts(sound::account(random))),
        11..=13 => (vec![], of_contracts(sound::account(random))),
        14..=16 => (sound::account(random), vec![]),
        17 => (vec![], vec![]),
        18..=32 => crowded(random),
        33..=36 => converted_at_noon(random),
        _ => {
            let morning = sound::account(random);
            let noon = traded(random, &morning);
            (morning, noon)
        }
    };
    if !converted && !random.one_in(6) {
        rates::repair(&mut noon, &rates::listed(&morning));
    }
    match random.below(100) {
        0..=14 => (damaged(random, morning), noon.concat()),
        15..=35 => (morning.concat(), damaged(random, noon)),
        36..=38 => (damaged(random, morning), damaged(random, noon)),
        39..=42 => (morning.concat(), sound::account(random).concat()),
        43..=46 => {
            noon.extend(morning.iter().filter(|record| record[0] == ENTRY));
            (morning.concat(), noon.concat())
        }
        47..=50 => {
            noon.extend(morning.iter().filter(|record| record[0] == CURRENCY_RATE));
            (morning.concat(), noon.concat())
        }
        _ => (morning.concat(), noon.concat()),
    }
}

/// Without entries and currency rates.
fn of_contracts(mut records: Vec<Bytes>) -> Vec<Bytes> {
    records.retain(|record| record[0] < ENTRY);
    records
}

/// What trading makes of a morning's contracts; new ones are of another account.
fn traded(random: &mut Random, morning: &[Bytes]) -> Vec<Bytes> {
    let other = sound::account(random);
    let mut noon = vec![];
    for number in 0..16 {
        let held = contract(morning, number);
        match random.below(8) {
            0 => noon.extend(held),
            1 => noon.extend(held.first()),
            2..=4 => noon.extend(changed(random, held)),
            5 => noon.extend(contract(&other, number)),
            _ => {}
        }
    }
    in_order(&mut noon);
    noon
}

/// The records of kinds 1 to 4 of a contract.
fn contract(records: &[Bytes], number: u8) -> Vec<Bytes> {
    let of_it = |record: &&Bytes| record[0] < ENTRY && record[NUMBER.at] == number;
    records.iter().filter(of_it).copied().collect()
}

/// Records by kind, those of kinds 1 to 4 by contract, otherwise as they stood.
fn in_order(records: &mut [Bytes]) {
    records
        .sort_by_key(|record| (record[0], if record[0] < ENTRY { record[NUMBER.at] } else { 0 }));
}

/// A contract with rows added, closed or of other lots, and with other rates.
fn changed(random: &mut Random, mut records: Vec<Bytes>) -> Vec<Bytes> {
    let taste = taste(random);
    for _ in 0..random.between(1, 6).min(records.len() as i64) {
        let place = random.place(records.len());
        let rows = records.iter().filter(|record| record[0] == ROW).count();
        let record = &mut records[place];
        match (record[0], random.below(3)) {
            (CONTRACT, _) => put(record, SHORT_OPTION_RATE, rate(random, taste, SHORT_OPTION_RATE)),
            (PROMPT, _) => put(record, RATE_OUTRIGHT, rate(random, taste, RATE_OUTRIGHT)),
            (ROW, 0) => {
                records.remove(place);
            }
            (ROW, 1) if rows < MOST_ROWS => records.insert(place, records[place]),
            (ROW, _) => put(record, LOTS, lots(random, taste)),
            _ => put(record, SPREAD_RATE, rate(random, taste, SPREAD_RATE)),
        }
    }
    records
}

/// A noon file whose rows are converted at the morning's rates; some pass the limit or have no rate.
fn converted_at_noon(random: &mut Random) -> (Vec<Bytes>, Vec<Bytes>) {
    let mut records = converted::account(random);
    let rates = records.iter().position(|record| record[0] == CURRENCY_RATE);
    let rates = records.split_off(rates.unwrap_or(records.len()));
    (rates, records)
}

/// Two files with 640 records joined, or about so many, or up to 1,280; sometimes noon has entries.
fn crowded(random: &mut Random) -> (Vec<Bytes>, Vec<Bytes>) {
    let target = match random.below(8) {
        0..=2 => 640,
        3 | 4 => 641,
        5 => random.between(638, 644) as usize,
        6 => 2 * MOST_RECORDS,
        _ => random.between(640, 1_280) as usize,
    };
    let size = random.between((target / 2) as i64, MOST_RECORDS as i64) as usize;
    let morning = sound::of_size(random, size, &[0, 3, 4, 7, 9, 10, 13, 14], true);
    let mut noon = if random.one_in(2) { traded(random, &morning) } else { vec![] };
    let from_morning = |record: &&Bytes| record[0] >= ENTRY || !lists(&noon, record[NUMBER.at]);
    let joined = morning.iter().filter(from_morning).count() + noon.len();
    let lacking = target.saturating_sub(joined).min(MOST_RECORDS.saturating_sub(noon.len()));
    let in_neither = |number: &u8| !lists(&morning, *number) && !lists(&noon, *number);
    let new: Vec<i64> = (0..16).filter(in_neither).map(i64::from).collect();
    let entries = random.one_in(8);
    noon.extend(sound::of_size(random, lacking, &new, entries));
    in_order(&mut noon);
    (morning, noon)
}

fn lists(records: &[Bytes], number: u8) -> bool {
    records.iter().any(|record| record[0] == CONTRACT && record[NUMBER.at] == number)
}
