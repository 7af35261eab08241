//! Tickets put to an account, line by line: what each does to the margin, or why it is refused.

use crate::args::Tickets;
use crate::failure::{Failure, Status};
use crate::input::{misread_lines, Input, STANDARD};
use crate::numbers::amount;
use crate::output;
use account_text::explain::refused;
use account_text::write::write;
use felgotany::refusals::{rule, NOT_WHOLE_RECORDS, NO_TICKET_LEFT, TOO_LONG, UNKNOWN_KIND};
use felgotany::{Outcome, Ticketed};
use independent::format::{Record, CONTRACT, NUMBER, PROMPT, RECORD_BYTES, ROW};
use std::io::{self, BufRead};

/// The line that takes the latest ticket back.
const WITHDRAW: &str = "withdraw";

/// Answers each line of standard input as it comes.
pub fn answer(asked: &Tickets) -> Result<Status, Failure> {
    if asked.account.as_os_str() == STANDARD {
        let told = "the tickets come from standard input, so the account needs a name".to_string();
        return Err(Failure::called_wrongly(told));
    }
    let account = Input::load(&asked.account, asked.empty.empty)?.accepted()?;
    let mut desk = Desk { account, tickets: vec![] };
    let mut status = Status::Answered;
    for (place, line) in io::stdin().lock().split(b'\n').enumerate() {
        let line = line.map_err(|fault| Failure::not_read(format!("standard input: {fault}")))?;
        if let Some(answer) = desk.line(place + 1, &line) {
            status = status.max(answer.status());
            match answer {
                Answer::Misread(told) => output::tell(&format!("felgotany: {told}\n")),
                _ if asked.lines => output::to_standard(answer.for_programs())?,
                _ => output::to_standard(answer.for_people())?,
            }
        }
    }
    Ok(status)
}

/// An account and the tickets that are put into it.
struct Desk {
    account: Input,
    tickets: Vec<u8>,
}

impl Desk {
    /// The answer to a line; none where it says nothing.
    fn line(&mut self, number: usize, line: &[u8]) -> Option<Answer> {
        if line.trim_ascii() == WITHDRAW.as_bytes() {
            return Some(self.withdraw());
        }
        match write(line) {
            Ok(ticket) if ticket.file.is_empty() => None,
            Ok(ticket) => Some(self.add(&ticket.file)),
            Err(mut misread) => {
                misread.iter_mut().for_each(|fault| fault.line = number);
                Some(Answer::Misread(misread_lines("standard input", &misread)))
            }
        }
    }

    fn add(&mut self, ticket: &[u8]) -> Answer {
        match felgotany::ticket(&self.account.file, &self.tickets, ticket) {
            Ticketed { refusal: 0, ticket: number, before, after, .. } => {
                self.tickets.extend(ticket);
                Answer::Added { ticket: number, before, after }
            }
            Ticketed { refusal, record, .. } => {
                let refused = Outcome { refusal, record };
                Answer::Refused(refused, self.in_words(ticket, refused))
            }
        }
    }

    /// The latest ticket taken back.
    fn withdraw(&mut self) -> Answer {
        match felgotany::withdraw(&self.account.file, &self.tickets) {
            Ticketed { refusal: 0, ticket, before, after, .. } => {
                self.tickets.truncate(self.tickets.len() - RECORD_BYTES);
                Answer::Withdrawn { ticket, before, after }
            }
            Ticketed { refusal, record, .. } => {
                Answer::Refused(Outcome { refusal, record }, rule(refusal).unwrap_or_default().to_string())
            }
        }
    }

    /// Why a ticket is refused: the fault of the file that it would make.
    fn in_words(&self, ticket: &[u8], verdict: Outcome) -> String {
        let rule = rule(verdict.refusal).unwrap_or_default();
        match verdict.refusal {
            TOO_LONG => "the file would have more than 640 records".to_string(),
            NOT_WHOLE_RECORDS => "a ticket is one row of 96 bytes".to_string(),
            NO_TICKET_LEFT => rule.to_string(),
            UNKNOWN_KIND => format!("a ticket is a row, kind 3; kind (byte 0) is {}", ticket[0]),
            _ => {
                let with = self.tickets.chunks_exact(RECORD_BYTES).chain([ticket]).fold(self.account.file.clone(), put_in);
                refused(&with, verdict).unwrap_or(format!(": {rule}")).trim_start_matches([',', ':', ' ']).replace("\n  ", "; ")
            }
        }
    }
}

/// A file with a ticket put last among its contract's rows.
fn put_in(mut file: Vec<u8>, ticket: &[u8]) -> Vec<u8> {
    let number = |bytes: &[u8]| Record(bytes).get(NUMBER);
    let before = |bytes: &&[u8]| match bytes[0] {
        CONTRACT | PROMPT => true,
        ROW => number(bytes) <= number(ticket),
        _ => false,
    };
    let place = file.chunks_exact(RECORD_BYTES).filter(before).count() * RECORD_BYTES;
    file.splice(place..place, ticket.iter().copied());
    file
}

/// What is said of a line.
enum Answer {
    Added { ticket: usize, before: u64, after: u64 },
    Withdrawn { ticket: usize, before: u64, after: u64 },
    Refused(Outcome, String),
    Misread(String),
}

impl Answer {
    fn status(&self) -> Status {
        match self {
            Answer::Added { .. } | Answer::Withdrawn { .. } => Status::Answered,
            Answer::Refused(..) => Status::Refused,
            Answer::Misread(_) => Status::NotRead,
        }
    }

    fn for_people(&self) -> String {
        let margins = |before: u64, after: u64| {
            let [before, after] = [before as i64, after as i64];
            format!("margin before {}, after {}, change {}", amount(before), amount(after), amount(after - before))
        };
        match *self {
            Answer::Added { ticket, before, after } => format!("ticket {ticket}: {}\n", margins(before, after)),
            Answer::Withdrawn { ticket, before, after } => format!("ticket {ticket} withdrawn: {}\n", margins(before, after)),
            Answer::Refused(Outcome { refusal, record }, ref words) => format!("refusal {refusal}, record {record}: {words}\n"),
            Answer::Misread(ref told) => format!("{told}\n"),
        }
    }

    fn for_programs(&self) -> String {
        let line = |letter, ticket, before: u64, after: u64| {
            format!("{letter} {ticket} {before} {after} {}\n", after as i64 - before as i64)
        };
        match *self {
            Answer::Added { ticket, before, after } => line('A', ticket, before, after),
            Answer::Withdrawn { ticket, before, after } => line('W', ticket, before, after),
            Answer::Refused(Outcome { refusal, record }, _) => format!("R {refusal} {record}\n"),
            Answer::Misread(_) => String::new(),
        }
    }
}
