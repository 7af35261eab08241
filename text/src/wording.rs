//! What is said of the faults for which an account is refused. A name in braces is filled in. The rules of
//! the refusals are the library's; docs/REFUSALS.md quotes both.

use felgotany::refusals::*;
use std::fmt::Display;

pub const ACCEPTED: &str = "accepted, {records}";
pub const ACCEPTED_EMPTY: &str = "accepted, 0 records: the account is empty";

pub const LONGER: &str = "the file has more than {most} bytes, which are {most} records";
pub const NOT_WHOLE: &str = "the file has {bytes}: {records} and {bytes} more";
pub const NO_SUCH_KIND: &str =
    "kind (byte 0) is {kind}; the kinds are 1 contract, 2 prompt, 3 row, 4 interprompt spread, \
     5 intercontract spread, 6 currency rate";
pub const KIND_FALLS: &str = "kind (byte 0) is {kind}; the record before is {before}, kind {kind}";
pub const UNUSED: &str = "byte {byte} is {number}; {kind} does not use it";
pub const OUTSIDE: &str = "{field} is {number}; its range is {range}";
pub const UNLISTED_CONTRACT: &str = "{field} is {contract}; no earlier record lists that contract";
pub const UNLISTED_DAY: &str =
    "{field} is {day}; no earlier record lists a prompt of contract {contract} on that day";
pub const UNLISTED_TIER: &str =
    "{field} is {tier}; no earlier record lists a prompt of contract {contract} in that tier";
pub const NUMBER_NOT_ABOVE: &str =
    "{field} is {number}; the contract before has {number}, and a higher number must follow";
pub const DAY_NOT_ABOVE: &str =
    "{field} is {day}; the prompt before in contract {contract} has {day}, and a later day must follow";
pub const CONTRACT_BELOW: &str =
    "{field} is {contract}; the {kind} before has contract {contract}, and none below it may follow";
pub const TIER_BELOW: &str =
    "{field} is {tier}; the prompt before in contract {contract} has tier {tier}, and none below it \
     may follow";
pub const CURRENCY_NOT_ABOVE: &str =
    "{field} is {currency}; the currency rate before has {currency}, and a higher currency must follow";
pub const SAME_LEGS: &str = "legs {leg} and {leg} both have tier {tier} and side {side}";
pub const NO_SIDE: &str = "every leg has side {side}, and none has side {side}";
pub const WITH_ITSELF: &str = "{field} and {field} are both {contract}";
pub const OVER_CONTRACT_LIMIT: &str =
    "{field} is {contract}; that contract has {most} {kind}s before this one, which is the most";
pub const OVER_TABLE_LIMIT: &str =
    "{most} intercontract spreads come before this one, which is the most";

pub const WITHOUT_RATE: &str =
    "{field} is {currency}; the account has no currency rate, kind 6, of that currency";
pub const BEYOND: &str =
    "{field} is {currency}; its {loss} of {product} in scenario {scenario} is {amount} in the margin \
     currency, at {rate} millionths {raised} by {percent} percent; the most is {most}, in hundredths";

/// What is said of the faults of a refusal; nothing of one that is not the check's.
pub fn faults(number: usize) -> &'static [&'static str] {
    match number {
        TOO_LONG => &[LONGER],
        NOT_WHOLE_RECORDS => &[NOT_WHOLE],
        UNKNOWN_KIND => &[NO_SUCH_KIND],
        KIND_BELOW => &[KIND_FALLS],
        UNUSED_BYTE => &[UNUSED],
        OUTSIDE_RANGE => &[OUTSIDE],
        UNLISTED => &[UNLISTED_CONTRACT, UNLISTED_DAY, UNLISTED_TIER],
        ORDER_OR_CLASH => &[
            NUMBER_NOT_ABOVE,
            CONTRACT_BELOW,
            DAY_NOT_ABOVE,
            TIER_BELOW,
            CURRENCY_NOT_ABOVE,
            SAME_LEGS,
            NO_SIDE,
            WITH_ITSELF,
        ],
        OVER_LIMIT => &[OVER_CONTRACT_LIMIT, OVER_TABLE_LIMIT],
        NO_RATE => &[WITHOUT_RATE],
        CONVERSION_BEYOND => &[BEYOND],
        _ => &[],
    }
}

/// A wording with its names in braces filled in, in their order.
pub fn say(wording: &str, values: &[&dyn Display]) -> String {
    let mut values = values.iter();
    let mut said = String::new();
    for part in wording.split_inclusive('}') {
        match (part.split_once('{'), values.next()) {
            (Some((before, _)), Some(value)) => said += &format!("{before}{value}"),
            _ => said += part,
        }
    }
    said
}

/// So many of a thing, in words.
pub fn counted(count: usize, thing: &str) -> String {
    let plural = if count == 1 { "" } else { "s" };
    format!("{count} {thing}{plural}")
}

/// The whole table: of each refusal the number, the rule, the record it names and its faults.
pub fn table() -> String {
    let line = |refusal: &Refusal| {
        let Refusal { number, rule, names } = refusal;
        let faults = faults(*number).iter().map(|fault| format!("     {fault}\n"));
        format!("{number:>3}  {rule} (record named: {names})\n{}", faults.collect::<String>())
    };
    REFUSALS.iter().map(line).collect()
}
