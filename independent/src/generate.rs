//! Generated account files: from a seed and an index always the same bytes. About half are accepted
//! accounts of every size; the others are such accounts damaged in one place or several, and noise.
//! Pairs of a morning and a noon file, and runs of accounts, are made of them.

mod charged;
mod converted;
mod damage;
mod entered;
mod list;
mod pair;
mod priced;
mod random;
mod rates;
mod rows;
mod run;
mod screen;
mod sound;
mod ticket;
mod values;
mod write;

pub use list::list;
pub use random::Random;
pub use rows::{parted, reordered};
pub use run::Run;
pub use screen::{limit, Screen};
pub use ticket::Doing;

use crate::entered::Entered;
use crate::format::{MOST_BYTES, RECORD_BYTES};
use crate::joined::{Cover, MOST_AMOUNT};
use crate::units::Amount;
use write::Bytes;

/// The file with this seed and index.
pub fn account(seed: u64, index: u64) -> Vec<u8> {
    any(&mut Random::new(seed, index))
}

/// The morning and the noon file with this seed and index.
pub fn pair(seed: u64, index: u64) -> (Vec<u8>, Vec<u8>) {
    pair::files(&mut Random::new(seed, index))
}

/// The run of accounts with this seed and index.
pub fn run(seed: u64, index: u64) -> Run {
    run::run(&mut Random::new(seed, index))
}

/// The account with this seed and index for tickets, and what is done with it.
pub fn tickets(seed: u64, index: u64) -> (Vec<u8>, Vec<Doing>) {
    ticket::tickets(&mut Random::new(seed, index))
}

/// The screen with this seed and index.
pub fn screen(seed: u64, index: u64) -> Screen {
    screen::screen(&mut Random::new(seed, index))
}

/// The entries with this seed and index.
pub fn entries(seed: u64, index: u64) -> Vec<Entered> {
    entered::entries(&mut Random::new(seed, index))
}

fn any(random: &mut Random) -> Vec<u8> {
    match random.below(100) {
        0..=41 => sound::account(random).concat(),
        42..=46 => converted::account(random).concat(),
        47..=94 => {
            let records = sound::account(random);
            damaged(random, records)
        }
        95..=97 => loose_records(random).concat(),
        _ => noise(random),
    }
}

fn damaged(random: &mut Random, mut records: Vec<Bytes>) -> Vec<u8> {
    damage::records(random, &mut records);
    let mut file = records.concat();
    if random.one_in(8) {
        damage::length(random, &mut file);
    }
    file
}

/// A question to put to a file: mostly 0 to 16, now and then one that can never be listed.
pub fn question(random: &mut Random) -> u64 {
    match random.below(16) {
        0 => random.pick(&[17, 255, 256, 272, 1 << 32, (1 << 32) + 16, 1 << 63, u64::MAX]),
        1..=5 => 16,
        _ => random.below(16),
    }
}

/// How many numbers to lend where an answer needs so many: too few now and then.
pub fn lent(random: &mut Random, needed: usize) -> usize {
    match random.below(8) {
        0 => needed.saturating_sub(1),
        1 => random.below(needed as u64 + 1) as usize,
        2 => 0,
        3 => needed + 1,
        4 => needed + random.below(64) as usize,
        _ => needed,
    }
}

/// Amounts for the call on an account with this requirement: where the two comparisons turn, at the
/// ends of their range and now and then outside it.
pub fn cover(random: &mut Random, requirement: Amount) -> Cover {
    let most = MOST_AMOUNT.0;
    let mut near = |most: i64| match random.below(8) {
        0 => random.pick(&[0, 1, most - 1, most]),
        1 => random.between(0, most),
        2 => random.between(0, requirement.0.min(most)),
        _ => (requirement.0 + random.between(-1, 1)).clamp(0, most),
    };
    let (reached, collateral) = (near(2 * most), near(most));
    let last_call = random.between((reached - most).max(0), reached.min(most));
    let mut amounts = [last_call, reached - last_call, collateral];
    if random.one_in(6) {
        amounts[random.place(3)] = random.pick(&[-1, most + 1, i64::MIN, i64::MAX]);
    }
    let [last_call, threshold, collateral] = amounts.map(Amount);
    Cover { last_call, threshold, collateral }
}

/// Records whose kinds rise and whose bytes are mostly small, without regard for anything else.
fn loose_records(random: &mut Random) -> Vec<Bytes> {
    let mut kinds: Vec<u8> = (0..random.below(12)).map(|_| random.between(1, 6) as u8).collect();
    kinds.sort_unstable();
    let loose = |kind| {
        let mut record = [0; RECORD_BYTES];
        record[0] = kind;
        for byte in [1, 2, 3, 4, 6, 8, 9, 10, 12, 13, 14, 16, 20] {
            record[byte] = random.below(4) as u8;
        }
        record
    };
    kinds.into_iter().map(loose).collect()
}

/// Bytes of no meaning, of any length and of whole records.
fn noise(random: &mut Random) -> Vec<u8> {
    let length = match random.below(4) {
        0 => random.below(300) as usize,
        1 => RECORD_BYTES * random.below(20) as usize,
        2 => random.below(5_000) as usize,
        _ => MOST_BYTES - 100 + random.below(200) as usize,
    };
    (0..length).map(|_| random.word() as u8).collect()
}
