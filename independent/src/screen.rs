//! The order screen's limit, request 2026-14 of document 02: "load an account, add a ticket, read the total,
//! and ask whether the total with a ticket stays at or below the client's limit". Quoted sentences are that
//! request's. "The screen lends bytes, says how many hold the account file with its tickets, and each call
//! checks them again."

use crate::check::check;
use crate::format::RECORD_BYTES;
use crate::margin::{figures_of, total};
use crate::refusal::*;
use crate::ticket::{place_of, Kept};
use crate::units::Amount;

/// What is answered to the question about a limit: "A ticket that is over the limit comes back with that
/// total."
#[derive(Clone, Copy, Debug, PartialEq, Eq)]
pub enum Limit {
    Within,
    Over { total: Amount },
}

/// Checks the account held; gives how many records it has.
pub fn load(lent: &[u8], held: u64) -> Result<usize, Refusal> {
    let account = check(held_bytes(lent, held)?)?;
    Ok(account.records)
}

/// The total margin of the account held.
pub fn read_total(lent: &[u8], held: u64) -> Result<Amount, Refusal> {
    let account = check(held_bytes(lent, held)?)?;
    Ok(total(&figures_of(&account)))
}

/// Adds a ticket to the account held; gives how many bytes hold it then. The row is put last among its
/// contract's rows, what stood after it moves on, and nothing after that is written.
pub fn add(lent: &mut [u8], held: u64, ticket: &[u8]) -> Result<u64, Refusal> {
    let file = held_bytes(lent, held)?;
    check(file)?;
    let at = RECORD_BYTES * place_of(file, ticket)?;
    let after = file.len() + RECORD_BYTES;
    // "16, adding without room for it"
    if lent.len() < after {
        return Err(Refusal { number: TOO_FEW_BYTES, record: 0 });
    }
    lent.copy_within(at..after - RECORD_BYTES, at + RECORD_BYTES);
    lent[at..at + RECORD_BYTES].copy_from_slice(ticket);
    Ok(after as u64)
}

/// Whether the total with a ticket stays at or below the limit. "Asking writes nothing." "20, limit below
/// zero, first of all".
pub fn ask(lent: &[u8], held: u64, ticket: &[u8], limit: i64) -> Result<Limit, Refusal> {
    if limit < 0 {
        return Err(Refusal { number: LIMIT_BELOW_ZERO, record: 0 });
    }
    let kept = Kept::load(held_bytes(lent, held)?)?.with(ticket)?;
    let total = total(&figures_of(&kept.account()));
    // "A yes is given exactly in that case."
    Ok(if total <= Amount(limit) { Limit::Within } else { Limit::Over { total } })
}

/// The bytes that hold the account, or "16, more bytes named than lent".
fn held_bytes(lent: &[u8], held: u64) -> Result<&[u8], Refusal> {
    let held = usize::try_from(held).ok().filter(|held| *held <= lent.len());
    match held {
        Some(held) => Ok(&lent[..held]),
        None => Err(Refusal { number: TOO_FEW_BYTES, record: 0 }),
    }
}
