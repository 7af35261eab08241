//! screens SEED COUNT [FIRST]: puts the calls of COUNT generated order screens, from index FIRST on, to the proved library and to the
//! independent program: loading, the total, the limit on either side of the total, and adding. Every answer must agree, and every lent
//! byte and those behind them afterwards; a total told must be the one that is read once the ticket is added.

use compare::asking::{same, Run};
use felgotany::{AddOutcome, LimitOutcome, Outcome, TotalOutcome, ABOVE_LIMIT, NOT_ASKED, WITHIN_LIMIT};
use independent::generate::{self, Random, Screen};
use independent::refusal::{Refusal, LIMIT_BELOW_ZERO, TOO_FEW_BYTES};
use independent::screen::{add, ask, load, read_total, Limit};
use independent::units::Amount;
use std::collections::BTreeMap;
use std::process::ExitCode;

/// How many bytes stand behind those lent, not to be touched.
const NOT_LENT: usize = 8;
/// How many limits are asked about for each screen.
const LIMITS: usize = 4;
/// From so many screens on, each refusal is expected to occur.
const ALL_OCCUR: u64 = 3_000;

fn main() -> ExitCode {
    let Some(run) = Run::of_arguments() else {
        eprintln!("usage: screens SEED COUNT [FIRST]");
        return ExitCode::from(2);
    };
    let mut tally = Tally::default();
    let differences = run.differences(|index| compare_screen(run.seed, index, &mut tally));
    let Run { seed, count, first } = run;
    println!("seed {seed}, {count} screens from index {first}");
    println!("limits: {}", line(&tally.limits));
    println!("tickets: {}", line(&tally.added));
    println!("{} within the limit, {} above it, {differences} differences", tally.within, tally.above);
    if differences == 0 && (count < ALL_OCCUR || tally.nothing_missing()) {
        ExitCode::SUCCESS
    } else {
        ExitCode::FAILURE
    }
}

#[derive(Default)]
struct Tally {
    limits: BTreeMap<usize, u64>,
    added: BTreeMap<usize, u64>,
    within: u64,
    above: u64,
}

impl Tally {
    fn nothing_missing(&self) -> bool {
        let of_rows = [1, 2, 3, 5, 6, 7, 9, 14, 15];
        let both = |number: u8| usize::from(number);
        let limits = of_rows.into_iter().chain([0, both(TOO_FEW_BYTES), both(LIMIT_BELOW_ZERO)]);
        let added = of_rows.into_iter().chain([0, both(TOO_FEW_BYTES)]);
        let mut missing: Vec<usize> = limits.filter(|number| !self.limits.contains_key(number)).collect();
        missing.extend(added.filter(|number| !self.added.contains_key(number)));
        if !missing.is_empty() {
            println!("never occurred: {missing:?}");
        }
        missing.is_empty() && self.within > 0 && self.above > 0
    }
}

fn line(counts: &BTreeMap<usize, u64>) -> String {
    let told = |(&refusal, count): (&usize, &u64)| match refusal {
        0 => format!("{count} accepted"),
        _ => format!("refusal {refusal}: {count}"),
    };
    counts.iter().map(told).collect::<Vec<_>>().join(", ")
}

fn outcome(refusal: Refusal) -> Outcome {
    Outcome { refusal: refusal.number.into(), record: refusal.record }
}

const ACCEPTED: Outcome = Outcome { refusal: 0, record: 0 };

fn total_outcome(read: Result<Amount, Refusal>) -> TotalOutcome {
    let Outcome { refusal, record } = read.map_or_else(outcome, |_| ACCEPTED);
    TotalOutcome { refusal, record, total: read.map_or(0, |total| total.0 as u64) }
}

/// What the independent program says of a limit; a total within it is read from the file with the ticket.
fn limit_outcome(screen: &Screen, limit: i64) -> LimitOutcome {
    let asked = ask(&screen.lent, screen.held, &screen.ticket, limit);
    let Outcome { refusal, record } = asked.map_or_else(outcome, |_| ACCEPTED);
    let (answer, total) = match asked {
        Err(_) => (NOT_ASKED, 0),
        Ok(Limit::Within) => (WITHIN_LIMIT, total_with(screen)),
        Ok(Limit::Over { total }) => (ABOVE_LIMIT, total.0),
    };
    LimitOutcome { refusal, record, answer, total: total as u64 }
}

/// The total of the account held with the ticket, with room for it; 0 where it is refused.
fn total_with(screen: &Screen) -> i64 {
    let mut lent = screen.lent.clone();
    lent.resize(lent.len() + 96, 0);
    let held = add(&mut lent, screen.held, &screen.ticket);
    held.and_then(|held| read_total(&lent, held)).map_or(0, |total| total.0)
}

fn compare_screen(seed: u64, index: u64, tally: &mut Tally) -> Result<(), String> {
    let screen = generate::screen(seed, index);
    let mut random = Random::new(!seed, index);
    let named = screen.held as usize;
    let mut memory = screen.lent.clone();
    memory.extend((0..NOT_LENT).map(|_| random.word() as u8));
    let (untouched, bytes) = (memory.clone(), screen.lent.len());
    let lent = &memory[..bytes];

    same("load", felgotany::screen_load(lent, named), load(lent, screen.held).map_or_else(outcome, |_| ACCEPTED))?;
    same("total", felgotany::screen_total(lent, named), total_outcome(read_total(lent, screen.held)))?;
    let total = total_with(&screen);
    for _ in 0..LIMITS {
        let limit = generate::limit(&mut random, Amount(total));
        let said = felgotany::screen_limit(lent, named, &screen.ticket, limit);
        same(&format!("limit {limit}"), said, limit_outcome(&screen, limit))?;
        *tally.limits.entry(said.refusal).or_default() += 1;
        tally.within += u64::from(said.answer == WITHIN_LIMIT);
        tally.above += u64::from(said.answer == ABOVE_LIMIT);
    }
    same("memory after asking", &memory, &untouched)?;

    let mut wanted = untouched.clone();
    let by_second = add(&mut wanted[..bytes], screen.held, &screen.ticket);
    let Outcome { refusal, record } = by_second.map_or_else(outcome, |_| ACCEPTED);
    let given = felgotany::screen_add(&mut memory[..bytes], named, &screen.ticket);
    same("add", given, AddOutcome { refusal, record, named: by_second.unwrap_or(0) as usize })?;
    same("memory after adding", &memory, &wanted)?;
    if refusal == 0 {
        let told = felgotany::screen_limit(&screen.lent, named, &screen.ticket, i64::MAX);
        let read = felgotany::screen_total(&memory[..bytes], given.named);
        same("the total told and the total read", (told.answer, told.total), (WITHIN_LIMIT, read.total))?;
    }
    *tally.added.entry(refusal).or_default() += 1;
    Ok(())
}
