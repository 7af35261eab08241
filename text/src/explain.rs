//! A verdict in words: the refusal with its rule, the fault, and the record that it names as text.

use crate::fault::{self, fault, kind_in_words};
use crate::read::read;
use crate::wording::*;
use felgotany::refusals::rule;
use felgotany::Outcome;
use independent::format::{Record, RECORD_BYTES};

/// The verdict on a file in words; nothing where the file has no fault that the verdict could mean.
pub fn explain(file: &[u8], verdict: Outcome) -> Option<String> {
    let Outcome { refusal: number, record } = verdict;
    if number == 0 {
        return Some(accepted(file.len() / RECORD_BYTES) + "\n");
    }
    let refused = refused(file, verdict)?;
    let text = named(file, verdict).map_or(String::new(), read);
    Some(format!("refusal {number}, record {record}{refused}\n{text}"))
}

/// That an account with so many records is accepted. One without records is said to be empty.
pub fn accepted(records: usize) -> String {
    match records {
        0 => say(ACCEPTED_EMPTY, &[]),
        _ => say(ACCEPTED, &[&counted(records, "record")]),
    }
}

/// What follows the number and the record of a refusal: the kind, the rule, and the fault on a line of
/// its own after two spaces.
pub fn refused(file: &[u8], verdict: Outcome) -> Option<String> {
    let rule = rule(verdict.refusal)?;
    let fault = fault(verdict.refusal, verdict.record, file)?;
    let kind = named(file, verdict).map(|bytes| format!(", {}", kind_in_words(Record(bytes))));
    Some(format!("{}: {rule}\n  {fault}", kind.unwrap_or_default()))
}

/// The record that a refusal names; none for the refusals of the whole file.
fn named(file: &[u8], verdict: Outcome) -> Option<&[u8]> {
    match verdict.refusal {
        1 | 2 => None,
        _ => file.chunks_exact(RECORD_BYTES).nth(verdict.record),
    }
}

/// The records after the one that a refusal names which have a fault of their own, each with its fault.
pub fn others(file: &[u8], verdict: Outcome) -> Vec<(usize, String)> {
    fault::others(verdict.refusal, file, verdict.record)
}
