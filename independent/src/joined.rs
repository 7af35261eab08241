//! Noon against the morning, request 2026-01 of document 02: "The desk holds a morning file and
//! receives at noon a shorter file with the contracts that traded." Quoted sentences are that
//! request's, unless another paper is named.

use crate::account::Account;
use crate::check::{check, check_records};
use crate::currency::check_rows;
use crate::format::*;
use crate::margin::{figures_of, total};
use crate::refusal::*;
use crate::units::Amount;
use crate::{held_book, held_figures, write};

/// The file of the joined account: "these records in 01's order".
pub fn join(morning: &[u8], noon: &[u8]) -> Result<Vec<u8>, PairRefusal> {
    // "Refusals: each file by 01's 1 to 9, morning first, saying which"
    check_records(morning).map_err(|refusal| refusal.of(MORNING))?;
    check_records(noon).map_err(|refusal| refusal.of(NOON))?;
    let (morning, noon) = (records(morning), records(noon));
    // "then 12, the noon file has kind 5, at its first such record"; kind 6 too, by 2026-05
    if let Some(record) = noon.iter().position(|record| record.kind() >= ENTRY) {
        return Err(PairRefusal { file: NOON, number: NOON_ENTRY, record });
    }
    let mut joined: Vec<Record> = vec![];
    for kind in CONTRACT..=SPREAD {
        for contract in 0..=15 {
            // "A contract's records of kinds 1 to 4 come from the noon file if that file lists the
            // contract, else from the morning's"
            let supplier = if lists(&noon, contract) { &noon } else { &morning };
            joined.extend(supplier.iter().filter(|record| is(record, kind, contract)));
        }
    }
    // "kind 5 always from the morning"; 2026-05: "In a joined account kind 6 comes from the morning"
    joined.extend(morning.iter().filter(|record| record.kind() >= ENTRY));
    // "then, naming the joined record count, 13, more than 640 records joined"
    if joined.len() > MOST_RECORDS {
        return Err(PairRefusal { file: JOINED, number: TOO_MANY_JOINED, record: joined.len() });
    }
    // 14 and 15 "joined, between 13 and 21, naming the joined record"
    check_rows(&joined).map_err(|refusal| refusal.of(JOINED))?;
    Ok(joined.iter().flat_map(|record| record.0).copied().collect())
}

/// Whether a record is of this kind and of this contract.
fn is(record: &Record, kind: u8, contract: u64) -> bool {
    record.kind() == kind && record.get(NUMBER) as u64 == contract
}

fn lists(records: &[Record], contract: u64) -> bool {
    records.iter().any(|record| is(record, CONTRACT, contract))
}

/// The joined account. Each contract has all its records from one accepted file, and every contract
/// that the morning's entries name is listed, so that 01 accepts the file.
pub fn account(morning: &[u8], noon: &[u8]) -> Result<Account, PairRefusal> {
    let file = join(morning, noon)?;
    Ok(check(&file).expect("01 accepts a joined file"))
}

/// "Demands 2 and 3 read over the joined account": its figures, written as those of one file are.
pub fn figures(morning: &[u8], noon: &[u8], lent: &mut [i64]) -> Result<usize, PairRefusal> {
    let account = account(morning, noon)?;
    write(&account, &held_figures(&account), lent).map_err(|refusal| refusal.of(JOINED))
}

/// The delta book of the joined account for a question.
pub fn book(
    morning: &[u8],
    noon: &[u8],
    question: u64,
    lent: &mut [i64],
) -> Result<usize, PairRefusal> {
    let account = account(morning, noon)?;
    held_book(&account, question)
        .and_then(|book| write(&account, &book.numbers(), lent))
        .map_err(|refusal| refusal.of(JOINED))
}

/// Who paid for what in a delta book of the joined account.
pub fn uses(
    morning: &[u8],
    noon: &[u8],
    question: u64,
    lent: &mut [i64],
) -> Result<usize, PairRefusal> {
    let account = account(morning, noon)?;
    held_book(&account, question)
        .and_then(|book| write(&account, &book.uses(), lent))
        .map_err(|refusal| refusal.of(JOINED))
}

/// Some records in a row of one of the two files.
#[derive(Clone, Copy, Debug, PartialEq, Eq)]
pub struct Part {
    /// `MORNING` or `NOON`, and 0 where neither supplies them.
    pub file: u8,
    /// 0 where there are no records.
    pub first: usize,
    pub records: usize,
}

/// "For each contract hand back its prompt records as they stand in whichever file supplies them, an
/// empty part if neither lists it or the pair's records are refused."
pub fn prompts(morning: &[u8], noon: &[u8], contract: u64) -> Part {
    let nothing = Part { file: 0, first: 0, records: 0 };
    let (morning_records, noon_records) = (records(morning), records(noon));
    let (file, supplier) = if lists(&noon_records, contract) {
        (NOON, noon_records)
    } else if lists(&morning_records, contract) {
        (MORNING, morning_records)
    } else {
        return nothing;
    };
    if join(morning, noon).is_err() {
        return nothing;
    }
    let is_prompt = |record: &Record| is(record, PROMPT, contract);
    Part {
        file,
        first: supplier.iter().position(is_prompt).unwrap_or(0),
        records: supplier.iter().filter(|record| is_prompt(record)).count(),
    }
}

/// "The three amounts, in hundredths, are 0..1,000,000,000,000,000."
pub const MOST_AMOUNT: Amount = Amount(1_000_000_000_000_000);

/// What the requirement is compared with.
#[derive(Clone, Copy, Debug, PartialEq, Eq)]
pub struct Cover {
    pub last_call: Amount,
    pub threshold: Amount,
    pub collateral: Amount,
}

/// The call on the joined account, whose total margin is the requirement.
pub fn call(morning: &[u8], noon: &[u8], cover: Cover) -> Result<Amount, PairRefusal> {
    let account = account(morning, noon)?;
    // "21, an amount outside its range"
    let amounts = [cover.last_call, cover.threshold, cover.collateral];
    if amounts.iter().any(|amount| *amount < Amount(0) || *amount > MOST_AMOUNT) {
        let number = AMOUNT_OUT_OF_RANGE;
        return Err(PairRefusal { file: JOINED, number, record: account.records });
    }
    Ok(cover_call(total(&figures_of(&account)), cover))
}

/// "None unless the requirement exceeds the last cover call plus the threshold and also the revalued
/// collateral; otherwise requirement minus collateral." In 004: "Intra-day Margin requirement > (last
/// cover call + threshold)" and "Existing re-valued collateral < Intra-day Margin requirement".
pub fn cover_call(requirement: Amount, cover: Cover) -> Amount {
    if requirement > cover.last_call + cover.threshold && cover.collateral < requirement {
        requirement - cover.collateral
    } else {
        Amount(0)
    }
}
