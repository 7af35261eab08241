//! Runs of accounts: few of any sort, or many small ones; the lengths now and then do not add up, wrap
//! around, or cut the bytes elsewhere.

use super::random::Random;
use super::{any, sound};
use crate::format::RECORD_BYTES;

/// The bytes of a run and the lengths of its accounts.
#[derive(Clone, Debug, PartialEq, Eq)]
pub struct Run {
    pub bytes: Vec<u8>,
    pub lengths: Vec<u64>,
}

pub fn run(random: &mut Random) -> Run {
    let mut accounts: Vec<Vec<u8>> = match random.below(16) {
        0 => vec![],
        1 => (0..random.between(98, 102)).map(|_| small(random)).collect(),
        2 | 3 => (0..random.between(1, 12)).map(|_| small(random)).collect(),
        _ => (0..random.between(1, 4)).map(|_| any(random)).collect(),
    };
    if random.one_in(4) && !accounts.is_empty() {
        let again = accounts[random.place(accounts.len())].clone();
        accounts.push(again);
    }
    let mut lengths: Vec<u64> = accounts.iter().map(|account| account.len() as u64).collect();
    match random.below(8) {
        0 => other_sum(random, &mut lengths),
        1 => cut_elsewhere(random, &mut lengths),
        _ => {}
    }
    Run { bytes: accounts.concat(), lengths }
}

/// A small account, or nothing, or less than a record.
fn small(random: &mut Random) -> Vec<u8> {
    match random.below(8) {
        0 => vec![],
        1 => vec![1; random.place(RECORD_BYTES)],
        2 => at_minimum(random),
        _ => {
            let size = random.place(9);
            sound::of_size(random, size, &[0, 2, 3, 9], true).concat()
        }
    }
}

/// A contract with one short call, whose short option minimum is its scanning risk, or one more or less.
fn at_minimum(random: &mut Random) -> Vec<u8> {
    let minimum = random.between(1, 90_000) as i32;
    let loss = -(minimum + random.pick(&[-1, 0, 1]));
    let record = |head: [u8; 4], words: &[i32]| {
        let mut bytes = head.to_vec();
        bytes.extend(words.iter().flat_map(|word| word.to_le_bytes()));
        bytes.resize(RECORD_BYTES, 0);
        bytes
    };
    let (day, strike, lots, delta, value) = (20_260_318, 1, -1, 0, 1);
    let row = [&[day, strike, lots, delta, value], &[loss; 16][..]].concat();
    [record([1, 3, 0, 0], &[minimum]), record([2, 3, 1, 0], &[day]), record([3, 3, 1, 0], &row)]
        .concat()
}

/// Lengths that do not add up to the bytes: one more or less, an account too many, or lengths whose sum
/// does so only where it wraps around.
fn other_sum(random: &mut Random, lengths: &mut Vec<u64>) {
    match random.below(4) {
        0 => lengths.push(random.pick(&[1, 96, u64::MAX])),
        1 => {
            let (first, second) = (u64::MAX - random.below(1_000), lengths.pop().unwrap_or(0));
            lengths.extend([first, second.wrapping_sub(first)]);
        }
        _ if lengths.is_empty() => lengths.push(1),
        more => {
            let place = random.place(lengths.len());
            let moved = if more == 2 { lengths[place] + 1 } else { lengths[place].max(1) - 1 };
            lengths[place] = moved;
        }
    }
}

/// Moves a cut between two accounts; the sum stays.
fn cut_elsewhere(random: &mut Random, lengths: &mut [u64]) {
    if lengths.len() > 1 {
        let place = random.place(lengths.len() - 1);
        let by = random.pick(&[1, 96, lengths[place]]).min(lengths[place]);
        lengths[place] -= by;
        lengths[place + 1] += by;
    }
}
