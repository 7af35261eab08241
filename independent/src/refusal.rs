//! The refusals of document 01 and their numbers, and those of document 02.

use std::fmt;

/// File longer than 61,440 bytes.
pub const TOO_LONG: u8 = 1;
/// Length no multiple of 96.
pub const NOT_WHOLE_RECORDS: u8 = 2;
/// Kind not 1..6.
pub const UNKNOWN_KIND: u8 = 3;
/// Kind below the kind before it.
pub const KIND_BELOW: u8 = 4;
/// An unused byte is not zero.
pub const UNUSED_BYTE: u8 = 5;
/// A field outside its range.
pub const OUT_OF_RANGE: u8 = 6;
/// It names a contract, a prompt day or a tier that no earlier record lists.
pub const UNLISTED: u8 = 7;
/// Order or clash.
pub const ORDER_OR_CLASH: u8 = 8;
/// One record more than a per-contract or intercontract limit.
pub const OVER_LIMIT: u8 = 9;
/// Fewer numbers lent than the answer needs.
pub const TOO_FEW_LENT: u8 = 10;
/// Question neither a listed contract nor 16.
pub const UNLISTED_QUESTION: u8 = 11;
/// The noon file has kind 5 or 6.
pub const NOON_ENTRY: u8 = 12;
/// More than 640 records joined.
pub const TOO_MANY_JOINED: u8 = 13;
/// A row's currency has no rate.
pub const NO_RATE: u8 = 14;
/// A rounded conversion beyond its limit.
pub const CONVERSION_TOO_LARGE: u8 = 15;
/// Fewer bytes lent than are named or needed.
pub const TOO_FEW_BYTES: u8 = 16;
/// The lengths of a run do not add up to what was lent.
pub const LENGTHS_DIFFER: u8 = 17;
/// The step count or the prompt count of a list differs from the account's.
pub const OTHER_COUNTS: u8 = 18;
/// More than 100 accounts for the committee.
pub const TOO_MANY_ACCOUNTS: u8 = 19;
/// A limit below zero.
pub const LIMIT_BELOW_ZERO: u8 = 20;
/// An amount outside its range.
pub const AMOUNT_OUT_OF_RANGE: u8 = 21;

/// A withdrawal with no ticket left.
pub const NO_TICKET: u8 = 22;

/// What the refusal of a pair names by its file: the joined account, the morning file, the noon file.
pub const JOINED: u8 = 0;
pub const MORNING: u8 = 1;
pub const NOON: u8 = 2;

/// A refusal: its number and the record it names.
#[derive(Clone, Copy, Debug, PartialEq, Eq)]
pub struct Refusal {
    pub number: u8,
    pub record: usize,
}

impl Refusal {
    /// The same refusal, "saying which" file it is about.
    pub fn of(self, file: u8) -> PairRefusal {
        PairRefusal { file, number: self.number, record: self.record }
    }
}

impl fmt::Display for Refusal {
    /// "Only `R`, refusal and record."
    fn fmt(&self, out: &mut fmt::Formatter<'_>) -> fmt::Result {
        write!(out, "R {} {}", self.number, self.record)
    }
}

/// A refusal of a morning and a noon file: the file, the refusal's number and the record it names.
#[derive(Clone, Copy, Debug, PartialEq, Eq)]
pub struct PairRefusal {
    pub file: u8,
    pub number: u8,
    pub record: usize,
}

impl fmt::Display for PairRefusal {
    /// Only `R`, file, refusal and record.
    fn fmt(&self, out: &mut fmt::Formatter<'_>) -> fmt::Result {
        write!(out, "R {} {} {}", self.file, self.number, self.record)
    }
}

/// The file and the number of every refusal of a pair: "each file by 01's 1 to 9, morning first,
/// saying which; then 12 [..]; then [..] 13 [..]; 21 [..]; 11 and 10 as in 01", with 2026-05's 14 and 15
/// "between 13 and 21".
pub fn every_pair_refusal() -> Vec<(u8, u8)> {
    let of_file = |file| (TOO_LONG..=OVER_LIMIT).map(move |number| (file, number));
    let of_joined = [TOO_MANY_JOINED, NO_RATE, CONVERSION_TOO_LARGE].into_iter().chain([
        AMOUNT_OUT_OF_RANGE,
        UNLISTED_QUESTION,
        TOO_FEW_LENT,
    ]);
    of_file(MORNING)
        .chain(of_file(NOON))
        .chain([(NOON, NOON_ENTRY)])
        .chain(of_joined.map(|number| (JOINED, number)))
        .collect()
}
