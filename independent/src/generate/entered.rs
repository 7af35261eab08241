//! Entries as they come from position entry, request 2026-06: the records of an account, out of order and
//! now and then with faults.

use super::random::Random;
use super::write::Bytes;
use super::{converted, damage, sound};
use crate::entered::{entered, Entered};
use crate::format::*;

pub fn entries(random: &mut Random) -> Vec<Entered> {
    let mut records: Vec<Bytes> = match random.below(12) {
        0 | 1 => sound::crammed(random),
        2 => converted::account(random),
        _ => {
            let size = random.place(50);
            sound::of_size(random, size, &[0, 1, 4, 5, 12], true)
        }
    };
    if random.one_in(2) {
        damage::records(random, &mut records);
    }
    if random.one_in(8) {
        third_leg(random, &mut records);
    }
    records.retain(|record| (CONTRACT..=CURRENCY_RATE).contains(&record[0]));
    if random.one_in(24) && !records.is_empty() {
        let missing = (MOST_RECORDS + 1).saturating_sub(records.len());
        let more: Vec<Bytes> = (0..missing).map(|_| random.pick(&records)).collect();
        records.extend(more);
    }
    match random.below(4) {
        0 => {}
        1 => records.reverse(),
        _ => shuffle(random, &mut records),
    }
    records.iter().map(entered).collect()
}

/// Gives a spread of two legs something of a third, which is an unused byte.
fn third_leg(random: &mut Random, records: &mut [Bytes]) {
    let two_legs = |record: &&mut Bytes| record[0] == SPREAD && record[LEGS.at] == 2;
    if let Some(spread) = records.iter_mut().find(two_legs) {
        spread[16 + random.place(4)] = random.between(1, 255) as u8;
    }
}

pub fn shuffle<T>(random: &mut Random, list: &mut [T]) {
    for place in (1..list.len()).rev() {
        list.swap(place, random.place(place + 1));
    }
}
