//! A survey of generated tickets.

use crate::tally::Tally;
use independent::format::*;
use independent::generate::{self, Doing};
use independent::margin::{figures_of, Figures};
use independent::refusal::*;
use independent::ticket::Kept;

/// Every refusal of a ticket or of a withdrawal. A row in its own place has no 8.
const REFUSALS: [u8; 10] = [
    NOT_WHOLE_RECORDS,
    UNKNOWN_KIND,
    UNUSED_BYTE,
    OUT_OF_RANGE,
    UNLISTED,
    OVER_LIMIT,
    NO_RATE,
    CONVERSION_TOO_LARGE,
    TOO_LONG,
    NO_TICKET,
];

pub fn survey(seed: u64, count: u64) -> Tally {
    let mut tally = Tally::new("accounts", count);
    for index in 0..count {
        let (file, doings) = generate::tickets(seed, index);
        let Ok(mut kept) = Kept::load(&file) else { continue };
        let mut held = 0;
        for doing in &doings {
            held = see(&mut tally, &mut kept, doing, held);
        }
    }
    tally
}

/// Does one thing and gives how many tickets are held then.
fn see(tally: &mut Tally, kept: &mut Kept, doing: &Doing, held: usize) -> usize {
    let before = kept.clone();
    let done = match doing {
        Doing::Add(ticket) => kept.add(ticket),
        Doing::Withdraw => kept.withdraw(),
    };
    let number = done.err().map(|refusal| refusal.number);
    tally.refusal(&REFUSALS, number);
    match doing {
        Doing::Add(ticket) => {
            at_640(tally, &before, number);
            if number.is_none() {
                added(tally, &before, kept, ticket);
            }
        }
        Doing::Withdraw => tally.sight("one of several tickets withdrawn", held > 1),
    }
    match (number, doing) {
        (Some(_), _) => held,
        (None, Doing::Add(_)) => held + 1,
        (None, Doing::Withdraw) => held - 1,
    }
}

/// What is refused, or not, where the file is full.
fn at_640(tally: &mut Tally, before: &Kept, number: Option<u8>) {
    let records = before.file().len() / RECORD_BYTES;
    for refusal in [OUT_OF_RANGE, UNLISTED, OVER_LIMIT, NO_RATE] {
        let what = format!("refusal {refusal} while 1 holds");
        tally.sight(&what, records == MOST_RECORDS && number == Some(refusal));
    }
    tally.sight("the 640th record added", records == MOST_RECORDS - 1 && number.is_none());
}

fn added(tally: &mut Tally, before: &Kept, kept: &Kept, ticket: &[u8]) {
    let records = records(kept.file());
    let own = |record: &&Record| record.kind() == ROW && record.0[1] == ticket[1];
    tally.sight("the 128th row added", records.iter().filter(own).count() == MOST_ROWS);
    let after = |record: &Record| record.kind() == ROW && record.0[1] > ticket[1];
    tally.sight("a ticket before rows of another contract", records.iter().any(after));
    tally.sight("a ticket in another currency", ticket[CURRENCY.at] != 0);
    if records.len() > 60 {
        return;
    }
    let figures = [before, kept].map(|of| figures_of(&of.account()));
    let differs = |of: fn(&Figures) -> i64| figures[0].iter().map(of).ne(figures[1].iter().map(of));
    tally.sight("another active scenario", differs(|of| of.active_scenario as i64));
    tally.sight("another interprompt charge", differs(|of| of.interprompt_charge.0));
    tally.sight("another credit", differs(|of| of.credit.0));
    tally.sight("another short option minimum", differs(|of| of.short_option_minimum.0));
    tally.sight("a smaller margin", {
        figures[0].iter().zip(&figures[1]).any(|(before, after)| after.margin < before.margin)
    });
}
