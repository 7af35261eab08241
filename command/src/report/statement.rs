//! A client's statement: the report in short, without the rows and the working.

use super::account::{figures, joined, rates};
use super::contract::{classes, margin, prompts};
use super::document::{Document, Part};
use super::subject::Subject;
use super::Answered;

pub fn of(subject: &Subject, answered: &Answered, contact: &str) -> Document {
    let Answered { account, working, .. } = answered;
    let mut document = Document::new(subject.title("Margin statement"));
    subject.opening(&mut document, answered);
    if account.records > 0 {
        document.parts.push(Part::Table(figures(subject, account)));
        rates(&mut document, subject, account);
        joined(&mut document, subject, answered);
    }
    for (contract, working) in account.contracts.iter().zip(&working.contracts) {
        document.heading(2, subject.heading(working.number));
        let count = working.rows.len();
        document.say(format!("{count} of {count} rows counted: {}.", classes(&working.rows)));
        document.parts.push(Part::Table(margin(contract, working)));
        if !contract.book.prompts.is_empty() {
            document.parts.push(Part::Table(prompts(&contract.book, working)));
        }
    }
    document.say(format!("Questions about this statement: please ask {contact}."));
    document
}

/// The statement of a refused account: that no figure was worked out and whom to ask, and what is refused where that is shown.
pub fn refused(subject: &Subject, shown: Option<&str>, contact: &str) -> Document {
    let mut document = Document::new(subject.title("Margin statement"));
    let answer = match shown {
        Some(_) => format!("No figure was worked out: the account is refused, for what stands below. Please ask {contact}."),
        None => format!("No figure was worked out for this account. Please ask {contact}."),
    };
    document.answer("What is the margin?", [answer]);
    if let Some(told) = shown {
        document.heading(3, "What is refused");
        told.lines().for_each(|line| document.say(line.trim()));
    }
    document
}
