//! tickets SEED COUNT [FIRST]: puts the tickets and withdrawals of COUNT generated accounts, from index FIRST on, to the proved library
//! and to the independent program, each with those before it that were accepted. What is told and the totals before and after must
//! agree; and each thing that is looked for must have occurred.

use compare::asking::{same, Run};
use felgotany::Ticketed;
use independent::format::RECORD_BYTES;
use independent::generate::{self, Doing};
use independent::margin::{figures_of, total};
use independent::refusal::*;
use independent::ticket::Kept;
use std::collections::BTreeMap;
use std::process::ExitCode;

/// From so many accounts on, all that is looked for is expected to occur.
const ALL_OCCUR: u64 = 2_000;

fn main() -> ExitCode {
    let Some(run) = Run::of_arguments() else {
        eprintln!("usage: tickets SEED COUNT [FIRST]");
        return ExitCode::from(2);
    };
    let mut seen = Seen::default();
    let differences = run.differences(|index| compare_tickets(run.seed, index, &mut seen));
    println!("seed {}, {} accounts from index {}", run.seed, run.count, run.first);
    seen.0.iter().for_each(|(what, count)| println!("{what}: {count}"));
    println!("{differences} differences");
    let never: Vec<&String> = seen.0.iter().filter(|(_, count)| **count == 0).map(|(what, _)| what).collect();
    if run.count >= ALL_OCCUR && !never.is_empty() {
        println!("never occurred: {never:?}");
        return ExitCode::FAILURE;
    }
    if differences == 0 {
        ExitCode::SUCCESS
    } else {
        ExitCode::FAILURE
    }
}

/// How often each thing that is looked for was seen.
#[derive(Default)]
struct Seen(BTreeMap<String, u64>);

impl Seen {
    fn sight(&mut self, what: impl ToString, seen: bool) {
        *self.0.entry(what.to_string()).or_default() += u64::from(seen);
    }

    fn told(&mut self, told: Ticketed, withdrawn: bool) {
        let of_tickets = [NOT_WHOLE_RECORDS, UNKNOWN_KIND, UNUSED_BYTE, OUT_OF_RANGE, UNLISTED, OVER_LIMIT, NO_RATE];
        for number in of_tickets.into_iter().chain([CONVERSION_TOO_LARGE, TOO_LONG, NO_TICKET]).map(usize::from) {
            self.sight(format!("refusal {number}"), told.refusal == number);
        }
        let accepted = told.refusal == 0;
        self.sight("a ticket that raises the margin", accepted && !withdrawn && told.after > told.before);
        self.sight("a ticket that lowers the margin", accepted && !withdrawn && told.after < told.before);
        self.sight("a third ticket", accepted && !withdrawn && told.ticket == 3);
        self.sight("the latest of several withdrawn", accepted && withdrawn && told.ticket > 1);
        self.sight("a refused file", told.refusal != 0 && told.ticket == 0 && told.refusal != NO_TICKET.into());
    }
}

fn compare_tickets(seed: u64, index: u64, seen: &mut Seen) -> Result<(), String> {
    let (mut file, doings) = generate::tickets(seed, index);
    if index % 16 == 0 {
        // an account that is refused, whatever the ticket
        file.extend([0; RECORD_BYTES]);
    }
    let mut held: Vec<u8> = vec![];
    for doing in &doings {
        let (given, wanted) = match doing {
            Doing::Add(ticket) => (felgotany::ticket(&file, &held, ticket), second(&file, &held, Some(ticket))),
            Doing::Withdraw => (felgotany::withdraw(&file, &held), second(&file, &held, None)),
        };
        same(&format!("{doing:?} after {} bytes of tickets", held.len()), given, wanted)?;
        seen.told(given, matches!(doing, Doing::Withdraw));
        match doing {
            _ if given.refusal != 0 => {}
            Doing::Add(ticket) => held.extend(ticket),
            Doing::Withdraw => held.truncate(held.len() - RECORD_BYTES),
        }
    }
    Ok(())
}

/// What the independent program answers to a ticket, or to a withdrawal where there is none.
fn second(file: &[u8], held: &[u8], ticket: Option<&Vec<u8>>) -> Ticketed {
    let refused = |ticket, Refusal { number, record }| Ticketed { ticket, refusal: number.into(), record, before: 0, after: 0 };
    let total_of = |kept: &Kept| total(&figures_of(&kept.account())).0 as u64;
    let mut kept = match Kept::load(file) {
        Ok(kept) => kept,
        Err(refusal) => return refused(0, refusal),
    };
    let mut count = 0;
    for ticket in held.chunks(RECORD_BYTES) {
        kept.add(ticket).expect("a ticket that was accepted");
        count += 1;
    }
    let before = total_of(&kept);
    let (number, done) = match ticket {
        Some(ticket) => (count + 1, kept.add(ticket)),
        None => (count, kept.withdraw()),
    };
    match done {
        Ok(()) => Ticketed { ticket: number, refusal: 0, record: 0, before, after: total_of(&kept) },
        Err(refusal) => refused(number, refusal),
    }
}
