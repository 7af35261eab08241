//! The refusals: a name for each number, its rule in words, and the record that it names. include/felgotany_refusals.h has the
//! same for C.

pub const TOO_LONG: usize = 1;
pub const NOT_WHOLE_RECORDS: usize = 2;
pub const UNKNOWN_KIND: usize = 3;
pub const KIND_BELOW: usize = 4;
pub const UNUSED_BYTE: usize = 5;
pub const OUTSIDE_RANGE: usize = 6;
pub const UNLISTED: usize = 7;
pub const ORDER_OR_CLASH: usize = 8;
pub const OVER_LIMIT: usize = 9;
pub const TOO_FEW_NUMBERS: usize = 10;
pub const UNLISTED_QUESTION: usize = 11;
pub const NOON_INTERCONTRACT: usize = 12;
pub const TOO_MANY_JOINED: usize = 13;
pub const NO_RATE: usize = 14;
pub const CONVERSION_BEYOND: usize = 15;
pub const TOO_FEW_BYTES: usize = 16;
pub const LENGTHS_DIFFER: usize = 17;
pub const OTHER_COUNTS: usize = 18;
pub const TOO_MANY_ACCOUNTS: usize = 19;
pub const LIMIT_BELOW_ZERO: usize = 20;
pub const AMOUNT_OUTSIDE_RANGE: usize = 21;
pub const NO_TICKET_LEFT: usize = 22;

/// A refusal: its number, its rule, and the record that it names.
pub struct Refusal {
    pub number: usize,
    pub rule: &'static str,
    pub names: &'static str,
}

const THAT_ONE: &str = "that one";
const RECORD_COUNT: &str = "record count";
const JOINED_COUNT: &str = "joined record count";

const fn refusal(number: usize, rule: &'static str, names: &'static str) -> Refusal {
    Refusal { number, rule, names }
}

/// Every refusal, by its number.
pub const REFUSALS: [Refusal; 22] = [
    refusal(TOO_LONG, "file longer than 61,440 bytes", "0"),
    refusal(NOT_WHOLE_RECORDS, "length not a multiple of 96", "0"),
    refusal(UNKNOWN_KIND, "kind not 1..6", THAT_ONE),
    refusal(KIND_BELOW, "kind below the kind before it", THAT_ONE),
    refusal(UNUSED_BYTE, "an unused byte is not zero", THAT_ONE),
    refusal(OUTSIDE_RANGE, "a field outside its range", THAT_ONE),
    refusal(UNLISTED, "it names a contract, a prompt day or a tier that no earlier record lists", THAT_ONE),
    refusal(ORDER_OR_CLASH, "order or clash", THAT_ONE),
    refusal(OVER_LIMIT, "one record more than a per-contract or intercontract limit", THAT_ONE),
    refusal(TOO_FEW_NUMBERS, "less memory provided than the answer needs", RECORD_COUNT),
    refusal(UNLISTED_QUESTION, "question neither a listed contract nor 16", RECORD_COUNT),
    refusal(NOON_INTERCONTRACT, "the noon file has an intercontract spread or a currency rate", "its first such record"),
    refusal(TOO_MANY_JOINED, "more than 640 records joined", JOINED_COUNT),
    refusal(NO_RATE, "a row whose currency has no rate", THAT_ONE),
    refusal(CONVERSION_BEYOND, "a row with a rounded conversion beyond 100,000,000,000,000 hundredths", THAT_ONE),
    refusal(TOO_FEW_BYTES, "fewer bytes provided than are named or needed", "0"),
    refusal(LENGTHS_DIFFER, "the lengths of a run do not add up to what was lent", "0"),
    refusal(OTHER_COUNTS, "step count or prompt count differs from the account's", "0"),
    refusal(TOO_MANY_ACCOUNTS, "more than 100 accounts for the risk committee", "0"),
    refusal(LIMIT_BELOW_ZERO, "a limit below zero", "0"),
    refusal(AMOUNT_OUTSIDE_RANGE, "an amount outside 0 to 1,000,000,000,000,000 hundredths", JOINED_COUNT),
    refusal(NO_TICKET_LEFT, "a withdrawal with no ticket left", "0"),
];

/// The rule of a refusal by its number.
pub fn rule(number: usize) -> Option<&'static str> {
    REFUSALS.iter().find(|refusal| refusal.number == number).map(|refusal| refusal.rule)
}
