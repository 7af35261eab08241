//! Tickets, request 2026-07: an account and what is done with it, one thing after the other. Some accounts
//! are nearly full, so that tickets pass their limits.

use super::random::Random;
use super::write::{put, record, Bytes};
use super::{converted, damage, sound};
use crate::format::*;

/// One thing done with a kept account.
#[derive(Clone, Debug, PartialEq, Eq)]
pub enum Doing {
    Add(Vec<u8>),
    Withdraw,
}

/// An account and what is done with it.
pub fn tickets(random: &mut Random) -> (Vec<u8>, Vec<Doing>) {
    let records = match random.below(12) {
        0 => sound::crammed(random),
        1 => sound::of_size(random, 639, &[1, 2, 3, 6, 11], true),
        2 | 3 => converted::account(random),
        _ => {
            let size = random.between(3, 40) as usize;
            sound::of_size(random, size, &[0, 1, 4, 5, 12], true)
        }
    };
    let mut doings = vec![];
    for _ in 0..random.between(1, 6) {
        if random.one_in(4) {
            doings.push(Doing::Withdraw);
        } else {
            doings.push(Doing::Add(ticket(random, &records)));
        }
    }
    (records.concat(), doings)
}

/// A ticket for an account of these records: half of them sound.
pub fn ticket(random: &mut Random, records: &[Bytes]) -> Vec<u8> {
    let mut row = sound_row(random, records);
    match random.below(16) {
        0 => row[0] = random.pick(&[0, 1, 2, 4, 5, 6, 7, 255]),
        1 | 2 => damage::row(random, &mut row, records),
        3 => {
            damage::row(random, &mut row, records);
            damage::row(random, &mut row, records);
        }
        4 => put(&mut row, CURRENCY, random.between(0, 8)),
        5 => {
            put(&mut row, LOTS, LOTS.most);
            put(&mut row, VALUE, VALUE.most);
            put(&mut row, loss(random.place(SCENARIOS)), loss(0).most);
        }
        6 => {
            let length = random.pick(&[0, 1, 95, 97, 192]);
            return row.iter().copied().cycle().take(length).collect();
        }
        _ => {}
    }
    row.to_vec()
}

/// A row of the account with other lots, or a new one at one of its prompts.
fn sound_row(random: &mut Random, records: &[Bytes]) -> Bytes {
    let of_kind = |kind| -> Vec<Bytes> {
        records.iter().filter(|record| record[0] == kind).copied().collect()
    };
    let (rows, prompts) = (of_kind(ROW), of_kind(PROMPT));
    let mut row = if rows.is_empty() || random.one_in(3) {
        let ticks = random.between(-500, 500);
        let mut fields = vec![(delta(FORWARD), 10_000), (VALUE, random.between(1, 30))];
        fields.extend((0..SCENARIOS).map(|scenario| (loss(scenario), ticks * scenario as i64)));
        record(ROW, &fields)
    } else {
        random.pick(&rows)
    };
    put(&mut row, LOTS, random.between(-60, 60));
    if !prompts.is_empty() && (row[DAY.at..DAY.at + 4] == [0; 4] || random.one_in(2)) {
        let prompt = random.pick(&prompts);
        put(&mut row, NUMBER, Record(&prompt).get(NUMBER));
        put(&mut row, DAY, Record(&prompt).get(DAY));
    }
    row
}
