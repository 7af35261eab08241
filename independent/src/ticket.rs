//! One ticket more, request 2026-07 of document 02: "A dealer asks what one more row does to an account."
//! Quoted sentences are that request's. "The figures equal those of the file with that row put last among
//! its contract's rows": here they are reckoned from that file itself.

use crate::account::Account;
use crate::check::{check, fault};
use crate::currency::{rates, row_fault};
use crate::format::*;
use crate::refusal::*;
use crate::{held_figures, write};

/// "A kept account comes only from the check of a file or from one of these calls".
#[derive(Clone, Debug, PartialEq, Eq)]
pub struct Kept {
    file: Vec<u8>,
    /// The place of each ticket when it was added, the latest last.
    tickets: Vec<usize>,
}

impl Kept {
    pub fn load(file: &[u8]) -> Result<Kept, Refusal> {
        check(file)?;
        Ok(Kept { file: file.to_vec(), tickets: vec![] })
    }

    /// The file with its tickets.
    pub fn file(&self) -> &[u8] {
        &self.file
    }

    pub fn account(&self) -> Account {
        check(&self.file).expect("a kept account is accepted")
    }

    /// The figures, written as those of a file are.
    pub fn figures(&self, lent: &mut [i64]) -> Result<usize, Refusal> {
        let account = self.account();
        write(&account, &held_figures(&account), lent)
    }

    /// Adds a ticket; a refusal changes nothing.
    pub fn add(&mut self, ticket: &[u8]) -> Result<(), Refusal> {
        let place = place_of(&self.file, ticket)?;
        let at = place * RECORD_BYTES;
        self.file.splice(at..at, ticket.iter().copied());
        self.tickets.push(place);
        Ok(())
    }

    /// The account with a ticket more.
    pub fn with(&self, ticket: &[u8]) -> Result<Kept, Refusal> {
        let mut kept = self.clone();
        kept.add(ticket)?;
        Ok(kept)
    }

    /// "The latest ticket can be withdrawn, then the one before it; the account is then as it was before
    /// that ticket."
    pub fn withdraw(&mut self) -> Result<(), Refusal> {
        let Some(place) = self.tickets.pop() else {
            // "22, a withdrawal with no ticket left"
            return Err(Refusal { number: NO_TICKET, record: 0 });
        };
        let at = place * RECORD_BYTES;
        self.file.drain(at..at + RECORD_BYTES);
        Ok(())
    }
}

/// Where a ticket goes in an accepted file, or its refusal: "2, not 96 bytes; 3, not kind 3; 5 to 9, then
/// 14 and 15, for the new row; 3 to 15 name its would-be place [..]; then 1, when the file would pass 640
/// records".
pub fn place_of(file: &[u8], ticket: &[u8]) -> Result<usize, Refusal> {
    if ticket.len() != RECORD_BYTES {
        return Err(Refusal { number: NOT_WHOLE_RECORDS, record: 0 });
    }
    let (records, ticket) = (records(file), Record(ticket));
    let place = would_be_place(&records, ticket);
    if let Some(number) = ticket_fault(&records, ticket, place) {
        return Err(Refusal { number, record: place });
    }
    if records.len() + 1 > MOST_RECORDS {
        return Err(Refusal { number: TOO_LONG, record: 0 });
    }
    Ok(place)
}

/// "After kinds 1 and 2 and every row whose byte 1 is not above its own."
fn would_be_place(records: &[Record], ticket: Record) -> usize {
    let before = |record: &&Record| match record.kind() {
        CONTRACT | PROMPT => true,
        ROW => record.get(NUMBER) <= ticket.get(NUMBER),
        _ => false,
    };
    records.iter().filter(before).count()
}

/// The first of 3, 5 to 9, 14 and 15 that holds for a ticket at its place.
fn ticket_fault(records: &[Record], ticket: Record, place: usize) -> Option<u8> {
    if ticket.kind() != ROW {
        return Some(UNKNOWN_KIND);
    }
    let earlier = &records[..place];
    let of_record = (UNUSED_BYTE..=OVER_LIMIT).find(|number| fault(*number, ticket, earlier));
    of_record.or_else(|| row_fault(ticket, &rates(records)))
}
