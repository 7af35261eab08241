//! What a screen lends and names, request 2026-14.

use super::random::Random;
use super::{any, ticket};
use crate::format::{records, RECORD_BYTES};
use crate::units::Amount;

/// One call of the screen.
#[derive(Clone, Debug, PartialEq, Eq)]
pub struct Screen {
    pub lent: Vec<u8>,
    /// How many of the bytes lent are named as the account's.
    pub held: u64,
    pub ticket: Vec<u8>,
}

/// An account with room after it, or with little or none; now and then more bytes are named than lent.
pub fn screen(random: &mut Random) -> Screen {
    let (file, tickets) = ticket::tickets(random);
    let file = if random.one_in(4) { any(random) } else { file };
    let whole: Vec<_> =
        records(&file).iter().filter_map(|record| record.0.try_into().ok()).collect();
    let ticket = match tickets.into_iter().next() {
        Some(ticket::Doing::Add(ticket)) => ticket,
        _ => ticket::ticket(random, &whole),
    };
    let room = match random.below(8) {
        0 => 0,
        1 => RECORD_BYTES - 1,
        2 => RECORD_BYTES,
        3 => random.place(RECORD_BYTES),
        _ => random.place(3 * RECORD_BYTES),
    };
    let mut lent = file.clone();
    lent.resize(file.len() + room, 0xa5);
    let held = match random.below(10) {
        0 => lent.len() as u64 + random.pick(&[1, 96, 1 << 32, u64::MAX - (1 << 40)]),
        1 => lent.len() as u64,
        2 => random.below(lent.len() as u64 + 1),
        _ => file.len() as u64,
    };
    Screen { lent, held, ticket }
}

/// A limit about a total: on either side of it, the ends, or below zero.
pub fn limit(random: &mut Random, total: Amount) -> i64 {
    match random.below(8) {
        0 => random.pick(&[-1, i64::MIN]),
        1 => random.pick(&[0, i64::MAX]),
        2 | 3 => total.0,
        4 | 5 => (total.0 - 1).max(0),
        6 => total.0 + 1,
        _ => random.between(0, 2 * total.0),
    }
}
