//! The account file for people: as text that a spreadsheet or an editor can change, and its refusals in words.

pub mod columns;
pub mod explain;
pub mod fault;
mod meant;
pub mod read;
pub mod wording;
pub mod write;
