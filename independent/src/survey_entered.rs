//! A survey of generated entries.

use crate::tally::Tally;
use independent::entered::{read, write};
use independent::format::RECORD_BYTES;
use independent::generate::{self, Random};
use independent::refusal::*;

/// Every refusal of a written file; "2 to 4 never occur".
const REFUSALS: [u8; 9] = [
    TOO_LONG,
    UNUSED_BYTE,
    OUT_OF_RANGE,
    UNLISTED,
    ORDER_OR_CLASH,
    OVER_LIMIT,
    NO_RATE,
    CONVERSION_TOO_LARGE,
    TOO_FEW_BYTES,
];

pub fn survey(seed: u64, count: u64) -> Tally {
    let mut tally = Tally::new("lists of entries", count);
    for index in 0..count {
        let entries = generate::entries(seed, index);
        let mut random = Random::new(!seed, index);
        let needed = RECORD_BYTES * entries.len();
        let lent = generate::lent(&mut random, needed);
        let mut bytes = vec![0; lent];
        let written = write(&entries, &mut bytes);
        let refusal = written.as_ref().err();
        let number = refusal.map(|refusal| refusal.number);
        tally.refusal(&REFUSALS, number);
        let of_entries = number.is_some_and(|number| number != TOO_FEW_BYTES);
        tally.sight("a refusal of entries while 16 holds", of_entries && lent < needed);
        tally.sight("one byte too few", number == Some(TOO_FEW_BYTES) && lent + 1 == needed);
        let in_order = written.as_ref().is_ok_and(|bytes_written| {
            read(&bytes[..*bytes_written]).is_ok_and(|read| read == entries)
        });
        tally.sight("entries in the file's order", written.is_ok() && in_order);
        tally.sight("entries out of order", written.is_ok() && !in_order);
        tally.sight("no entries", entries.is_empty());
        tally.sight("640 entries", written.is_ok() && entries.len() == 640);
        tally.sight("641 entries", number == Some(TOO_LONG) && entries.len() == 641);
        let later = refusal.is_some_and(|refusal| refusal.record > 0);
        tally.sight("a refusal that names an entry after the first", later);
    }
    tally
}
