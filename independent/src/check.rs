//! Checking an account file. "Order: 1, 2; then records from 0 up, each tested 3 to 9, the first
//! fault answering"; then, by 2026-05 of document 02, each row 14 and 15.

use crate::account::Account;
use crate::currency;
use crate::format::*;
use crate::refusal::*;

/// The accepted account, or the refusal that the paper gives to this file.
pub fn check(file: &[u8]) -> Result<Account, Refusal> {
    check_records(file)?;
    let records = records(file);
    currency::check_rows(&records)?;
    Ok(Account::read(&records))
}

/// The refusal of 1 to 9 that the paper gives to this file.
pub fn check_records(file: &[u8]) -> Result<(), Refusal> {
    if too_long(file) {
        return Err(Refusal { number: TOO_LONG, record: 0 });
    }
    if not_whole_records(file) {
        return Err(Refusal { number: NOT_WHOLE_RECORDS, record: 0 });
    }
    let records = records(file);
    for record in 0..records.len() {
        for number in UNKNOWN_KIND..=OVER_LIMIT {
            if fault(number, records[record], &records[..record]) {
                return Err(Refusal { number, record });
            }
        }
    }
    Ok(())
}

pub fn too_long(file: &[u8]) -> bool {
    file.len() > MOST_BYTES
}

pub fn not_whole_records(file: &[u8]) -> bool {
    !file.len().is_multiple_of(RECORD_BYTES)
}

/// Whether the condition of refusal 3 to 9 holds for a record that stands after these earlier ones.
pub fn fault(number: u8, record: Record, earlier: &[Record]) -> bool {
    match number {
        UNKNOWN_KIND => !(CONTRACT..=CURRENCY_RATE).contains(&record.kind()),
        KIND_BELOW => earlier.last().is_some_and(|before| record.kind() < before.kind()),
        UNUSED_BYTE => unused_byte(record),
        OUT_OF_RANGE => out_of_range(record),
        UNLISTED => unlisted(record, earlier),
        ORDER_OR_CLASH => order_or_clash(record, earlier),
        OVER_LIMIT => over_limit(record, earlier),
        _ => false,
    }
}

/// "An unused byte is not zero."
fn unused_byte(record: Record) -> bool {
    let mut unused = [true; RECORD_BYTES];
    unused[0] = false;
    for field in record.fields() {
        unused[field.at..field.at + field.bytes].fill(false);
    }
    (0..RECORD_BYTES).any(|byte| unused[byte] && record.0[byte] != 0)
}

/// "A field outside its range."
fn out_of_range(record: Record) -> bool {
    record.fields().iter().any(|field| {
        let number = record.get(*field);
        number < field.least || number > field.most
    })
}

/// "Kinds 2 to 5 only: it names a contract, a prompt day of its contract, or a tier with a prompt of
/// its contract, that no earlier record lists (a prompt's own day and tier are listed by it, not
/// named)."
fn unlisted(record: Record, earlier: &[Record]) -> bool {
    let contract = record.get(NUMBER);
    let lists_contract = |number| {
        earlier.iter().any(|other| other.kind() == CONTRACT && other.get(NUMBER) == number)
    };
    let lists_prompt_with = |field, wanted| {
        earlier.iter().any(|other| {
            other.kind() == PROMPT && other.get(NUMBER) == contract && other.get(field) == wanted
        })
    };
    match record.kind() {
        PROMPT => !lists_contract(contract),
        ROW => !lists_contract(contract) || !lists_prompt_with(DAY, record.get(DAY)),
        SPREAD => {
            !lists_contract(contract)
                || (0..legs_in_use(record.get(LEGS)))
                    .any(|leg| !lists_prompt_with(PROMPT_TIER, record.get(leg_tier(leg))))
        }
        ENTRY => !lists_contract(contract) || !lists_contract(record.get(SECOND_NUMBER)),
        _ => false,
    }
}

/// Refusal 8, "order or clash". The one before is the nearest earlier record of the same kind.
fn order_or_clash(record: Record, earlier: &[Record]) -> bool {
    let contract = record.get(NUMBER);
    let before = earlier.iter().rev().find(|other| other.kind() == record.kind());
    match record.kind() {
        // "a contract number not above the one before"
        CONTRACT => before.is_some_and(|before| contract <= before.get(NUMBER)),
        PROMPT => before.is_some_and(|before| {
            let place = |prompt: Record| (prompt.get(NUMBER), prompt.get(DAY));
            // "a prompt whose (contract, day) is not above the one before"
            place(record) <= place(*before)
                // "or whose tier is below that of the prompt before it in its contract"
                || contract == before.get(NUMBER)
                    && record.get(PROMPT_TIER) < before.get(PROMPT_TIER)
        }),
        // "a row or an interprompt spread whose contract is below that of the one before of its kind"
        ROW => before.is_some_and(|before| contract < before.get(NUMBER)),
        SPREAD => before.is_some_and(|before| contract < before.get(NUMBER)) || legs_clash(record),
        // "an intercontract spread of a contract with itself"
        ENTRY => contract == record.get(SECOND_NUMBER),
        // 2026-05: "currency 1..7, ascending"
        CURRENCY_RATE => {
            before.is_some_and(|before| record.get(RATE_CURRENCY) <= before.get(RATE_CURRENCY))
        }
        _ => false,
    }
}

/// "Two legs with the same tier and side; no leg A or no leg B."
fn legs_clash(record: Record) -> bool {
    let legs: Vec<(i64, i64)> = (0..legs_in_use(record.get(LEGS)))
        .map(|leg| (record.get(leg_tier(leg)), record.get(leg_side(leg))))
        .collect();
    let doubled = legs.iter().enumerate().any(|(place, leg)| legs[..place].contains(leg));
    let lacks = |wanted| legs.iter().all(|(_, side)| *side != wanted);
    doubled || lacks(SIDE_A) || lacks(SIDE_B)
}

/// "One record more than a per-contract or intercontract limit."
fn over_limit(record: Record, earlier: &[Record]) -> bool {
    let of_kind = earlier.iter().filter(|other| other.kind() == record.kind());
    let of_contract = of_kind.clone().filter(|other| other.get(NUMBER) == record.get(NUMBER));
    match record.kind() {
        PROMPT => of_contract.count() >= MOST_PROMPTS,
        ROW => of_contract.count() >= MOST_ROWS,
        SPREAD => of_contract.count() >= MOST_SPREADS,
        ENTRY => of_kind.count() >= MOST_ENTRIES,
        _ => false,
    }
}
