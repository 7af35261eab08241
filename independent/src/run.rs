//! The whole book overnight, request 2026-08 of document 02: "Take a run of accounts, each with its
//! length, in one call, and answer each as a call of its own would, refusals included." Quoted
//! sentences are that request's.

use crate::check::check;
use crate::held_figures;
use crate::refusal::*;

/// "Each account has a place of 129 numbers for figures and one of two for refusal and record (both 0
/// if accepted)."
pub const FIGURES_PLACE: usize = 129;
pub const PLACE: usize = FIGURES_PLACE + 2;

/// What is answered to one account: its figures, or its refusal.
pub type Answer = Result<Vec<i64>, Refusal>;

/// The answer to each account of a run for which so many numbers are lent, or the refusal of the whole
/// run: "Refusals of the whole run, with record 0, before any account is read: 17, the lengths do not
/// add up to what was lent; then 10, too few numbers lent for all places."
pub fn answers(bytes: &[u8], lengths: &[u64], lent: usize) -> Result<Vec<Answer>, Refusal> {
    let accounts = accounts(bytes, lengths)?;
    if lent < PLACE * accounts.len() {
        return Err(Refusal { number: TOO_FEW_LENT, record: 0 });
    }
    Ok(accounts.iter().map(|file| answer(file)).collect())
}

/// The bytes of each account of a run, or its refusal 17. Lengths are added without wrap-around.
pub fn accounts<'a>(bytes: &'a [u8], lengths: &[u64]) -> Result<Vec<&'a [u8]>, Refusal> {
    let sum: u128 = lengths.iter().map(|length| u128::from(*length)).sum();
    if sum != bytes.len() as u128 {
        return Err(Refusal { number: LENGTHS_DIFFER, record: 0 });
    }
    let mut left = bytes;
    let mut accounts = vec![];
    for length in lengths {
        let (account, after) = left.split_at(*length as usize);
        accounts.push(account);
        left = after;
    }
    Ok(accounts)
}

/// The figures of an account, or its refusal.
pub fn answer(file: &[u8]) -> Answer {
    check(file).map(|account| held_figures(&account))
}

/// Writes the answers of a run into the numbers lent: for each account in turn its place of 129 numbers
/// and its place of two. "A refused account's figures are not written." Gives how many accounts the run
/// has.
pub fn run(bytes: &[u8], lengths: &[u64], lent: &mut [i64]) -> Result<usize, Refusal> {
    let answers = answers(bytes, lengths, lent.len())?;
    for (answer, place) in answers.iter().zip(lent.chunks_exact_mut(PLACE)) {
        let (figures, told) = place.split_at_mut(FIGURES_PLACE);
        match answer {
            Ok(numbers) => {
                figures[..numbers.len()].copy_from_slice(numbers);
                told.copy_from_slice(&[0, 0]);
            }
            Err(refusal) => {
                told.copy_from_slice(&[i64::from(refusal.number), refusal.record as i64]);
            }
        }
    }
    Ok(answers.len())
}
