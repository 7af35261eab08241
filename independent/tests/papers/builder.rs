//! Records written by the byte positions of document 01, and questions put to files made of them.

use independent::{book, figures, Refusal};

pub type Record = [u8; 96];

/// Losses of nothing in every scenario.
pub const NO_LOSS: [i32; 16] = [0; 16];

/// 002's array of the Copper US Dollars call at strike 1850, delta 0.5200.
pub const LME_CALL: [i32; 16] = [
    -1005, 1144, -3845, -1753, 1363, 3406, -7125, -5231, 3254, 5038, -10795, -9188, 4690, 6112,
    -8093, 2480,
];

/// 002's array of the Copper US Dollars forward, delta 0.9800.
pub const LME_FORWARD: [i32; 16] = [
    0, 0, -4900, -4900, 4900, 4900, -9800, -9800, 9800, 9800, -14700, -14700, 14700, 14700, -10300,
    10300,
];

fn put<const N: usize>(record: &mut Record, at: usize, bytes: [u8; N]) {
    record[at..at + N].copy_from_slice(&bytes);
}

fn start(kind: u8, byte_1: u8, byte_2: u8) -> Record {
    let mut record = [0; 96];
    record[..3].copy_from_slice(&[kind, byte_1, byte_2]);
    record
}

pub fn contract(number: u8, short_option_rate: u32) -> Record {
    let mut record = start(1, number, 0);
    put(&mut record, 4, short_option_rate.to_le_bytes());
    record
}

pub fn prompt(contract: u8, tier: u8, day: u32) -> Record {
    prompt_at(contract, tier, day, 0, 0)
}

/// A prompt with its rate per delta in spreads and per outright delta.
pub fn prompt_at(contract: u8, tier: u8, day: u32, in_spreads: u32, outright: u32) -> Record {
    let mut record = start(2, contract, tier);
    put(&mut record, 4, day.to_le_bytes());
    put(&mut record, 8, in_spreads.to_le_bytes());
    put(&mut record, 12, outright.to_le_bytes());
    record
}

/// What a row holds: lots, delta in ten-thousandths, value per tick per lot, sixteen losses.
pub type Held<'a> = (i32, i32, u32, &'a [i32; 16]);

fn row(contract: u8, class: u8, day: u32, strike: u32, held: Held) -> Record {
    let (lots, delta, value, losses) = held;
    let mut record = start(3, contract, class);
    put(&mut record, 4, day.to_le_bytes());
    put(&mut record, 8, strike.to_le_bytes());
    put(&mut record, 12, lots.to_le_bytes());
    put(&mut record, 16, delta.to_le_bytes());
    put(&mut record, 20, value.to_le_bytes());
    for (scenario, loss) in losses.iter().enumerate() {
        put(&mut record, 24 + 4 * scenario, loss.to_le_bytes());
    }
    record
}

pub fn forward(contract: u8, day: u32, held: Held) -> Record {
    row(contract, 0, day, 0, held)
}

pub fn call(contract: u8, day: u32, strike: u32, held: Held) -> Record {
    row(contract, 1, day, strike, held)
}

pub fn put_option(contract: u8, day: u32, strike: u32, held: Held) -> Record {
    row(contract, 2, day, strike, held)
}

/// Forwards without losses that give a prompt this net delta, in ten-thousandths.
pub fn net(contract: u8, day: u32, delta: i64) -> Vec<Record> {
    let whole = i32::try_from(delta / 10_000).unwrap();
    let rest = i32::try_from(delta % 10_000).unwrap();
    vec![
        forward(contract, day, (whole, 10_000, 1, &NO_LOSS)),
        forward(contract, day, (rest.signum(), rest.abs(), 1, &NO_LOSS)),
    ]
}

/// An interprompt spread with legs of tier, side and ratio.
pub fn spread(contract: u8, rate: u32, legs: &[(u8, char, u16)]) -> Record {
    let mut record = start(4, contract, legs.len() as u8);
    put(&mut record, 4, rate.to_le_bytes());
    for (leg, (tier, side, ratio)) in legs.iter().enumerate() {
        let side = if *side == 'A' { 1 } else { 2 };
        put(&mut record, 8 + 4 * leg, [*tier, side]);
        put(&mut record, 10 + 4 * leg, ratio.to_le_bytes());
    }
    record
}

/// A spread of two tiers, one of each to a spread.
pub fn pair(contract: u8, rate: u32, first: u8, second: u8) -> Record {
    spread(contract, rate, &[(first, 'A', 1), (second, 'B', 1)])
}

/// An intercontract spread of two contracts with their ratios.
pub fn entry(percent: u8, first: (u8, u16), second: (u8, u16)) -> Record {
    let mut record = start(5, first.0, second.0);
    record[3] = percent;
    put(&mut record, 4, first.1.to_le_bytes());
    put(&mut record, 6, second.1.to_le_bytes());
    record
}

/// An intercontract spread whose ratios are in tenths.
pub fn entry_in_tenths(percent: u8, first: (u8, u16), second: (u8, u16)) -> Record {
    with(entry(percent, first, second), 8, 1)
}

/// A contract with this unit in hundredths.
pub fn in_units(unit: u16, contract: Record) -> Record {
    let mut record = contract;
    put(&mut record, 8, unit.to_le_bytes());
    record
}

/// A currency rate: spot rate in millionths and adjustment percent.
pub fn rate(currency: u8, spot: u32, percent: u8) -> Record {
    let mut record = start(6, currency, 0);
    put(&mut record, 4, spot.to_le_bytes());
    record[8] = percent;
    record
}

/// A row in this currency.
pub fn in_currency(currency: u8, row: Record) -> Record {
    with(row, 3, currency)
}

/// The record with one byte changed.
pub fn with(record: Record, at: usize, byte: u8) -> Record {
    let mut changed = record;
    changed[at] = byte;
    changed
}

/// A file of these parts, each some records in a row.
pub fn file(parts: &[&[Record]]) -> Vec<u8> {
    parts.concat().concat()
}

/// The numbers of the figures: eight per contract, then the total.
pub fn figures_of(file: &[u8]) -> Vec<i64> {
    let mut lent = vec![0; 129];
    let written = figures(file, &mut lent).expect("an accepted account");
    lent.truncate(written);
    lent
}

/// The numbers of a delta book, without the number of takes at its end.
pub fn book_of(file: &[u8], question: u64) -> Vec<i64> {
    book_and_takes(file, question).0
}

/// The number of takes at the end of a delta book.
pub fn takes_of(file: &[u8], question: u64) -> i64 {
    book_and_takes(file, question).1
}

fn book_and_takes(file: &[u8], question: u64) -> (Vec<i64>, i64) {
    let mut lent = vec![0; 161];
    let written = book(file, question, &mut lent).expect("an accepted account");
    lent.truncate(written);
    let takes = lent.pop().expect("the number of takes is written");
    (lent, takes)
}

/// The refusal of a file and the record it names, or nothing for an accepted account.
pub fn refused(file: &[u8]) -> Option<(u8, usize)> {
    independent::check(file).err().map(|Refusal { number, record }| (number, record))
}
