//! The independent margin program: reads an account file on standard input and prints its figures,
//! or is asked for the check, a delta book, all there is to say, the figures of a morning and a noon
//! file or the call on them, generated files or a survey of them.

mod survey;
mod survey_committee;
mod survey_entered;
mod survey_lists;
mod survey_pairs;
mod survey_runs;
mod survey_screen;
mod survey_statements;
mod survey_tickets;
mod tally;

use independent::account::{Account, Contract};
use independent::book::{Book, INTERCONTRACT};
use independent::joined::{self, Cover};
use independent::steps::{Leg, Side};
use independent::units::Amount;
use independent::{check, figures, generate, held_book, margin, Refusal};
use std::fs;
use std::io::{self, Read, Write};
use std::process::ExitCode;

const USAGE: &str =
    "usage: independent                     the figures of the file on standard input
       independent check               whether the file is accepted
       independent book QUESTION       a delta book, 0 to 15, or 16 for the intercontract table
       independent lines [QUESTION]    figures and delta books, or one, one record a line
       independent survey SEED COUNT   what occurs in so many generated files
       independent write SEED INDEX    the bytes of one generated file
       independent pair MORNING NOON   the figures of two files joined
       independent call MORNING NOON LAST THRESHOLD COLLATERAL
                                       the call on two files joined
       independent survey-pairs SEED COUNT
                                       what occurs in so many generated pairs
       independent survey-runs SEED COUNT
                                       what occurs in so many generated runs of accounts
       independent survey-committee SEED COUNT
                                       what the committee's figures of so many runs show
       independent survey-lists SEED COUNT
                                       what occurs in so many lists of spreads
       independent survey-tickets SEED COUNT
                                       what occurs in so many accounts with tickets
       independent survey-screen SEED COUNT
                                       what occurs in so many calls of an order screen
       independent survey-entries SEED COUNT
                                       what occurs in so many lists of entries for the writer
       independent survey-statements SEED COUNT
                                       the two statements tried on so many generated files
       independent write-pair SEED INDEX MORNING NOON
                                       writes the two files of one generated pair";

/// Sixteen contracts with eight numbers each, and the total.
const MOST_FIGURES: usize = 16 * 8 + 1;

fn main() -> ExitCode {
    let arguments: Vec<String> = std::env::args().skip(1).collect();
    let words: Vec<&str> = arguments.iter().map(String::as_str).collect();
    let done = match words[..] {
        [] => standard_input().and_then(|file| print(&figure_lines(&file))),
        ["check"] => standard_input().and_then(|file| print(&check_line(&file))),
        ["book", question] => match question.parse() {
            Ok(question) => standard_input().and_then(|file| print(&book_lines(&file, question))),
            Err(_) => return usage(),
        },
        ["lines"] => standard_input().and_then(|file| print(&told(account_lines(&file)))),
        ["lines", question] => match question.parse() {
            Ok(question) => {
                standard_input().and_then(|file| print(&told(question_lines(&file, question))))
            }
            Err(_) => return usage(),
        },
        [survey, seed, count] if survey.starts_with("survey") => {
            match (seed.parse(), count.parse()) {
                (Ok(seed), Ok(count)) => match surveyed(survey, seed, count) {
                    Some(done) => done,
                    None => return usage(),
                },
                _ => return usage(),
            }
        }
        ["write", seed, index] => match (seed.parse(), index.parse()) {
            (Ok(seed), Ok(index)) => io::stdout().write_all(&generate::account(seed, index)),
            _ => return usage(),
        },
        ["pair", morning, noon] => read_pair(morning, noon)
            .and_then(|(morning, noon)| print(&joined_lines(&morning, &noon))),
        ["call", morning, noon, last, threshold, collateral] => {
            let amounts = (last.parse(), threshold.parse(), collateral.parse());
            let (Ok(last), Ok(threshold), Ok(collateral)) = amounts else { return usage() };
            let cover = Cover {
                last_call: Amount(last),
                threshold: Amount(threshold),
                collateral: Amount(collateral),
            };
            read_pair(morning, noon)
                .and_then(|(morning, noon)| print(&call_line(&morning, &noon, cover)))
        }
        ["write-pair", seed, index, morning, noon] => match (seed.parse(), index.parse()) {
            (Ok(seed), Ok(index)) => {
                let files = generate::pair(seed, index);
                fs::write(morning, files.0).and_then(|()| fs::write(noon, files.1))
            }
            _ => return usage(),
        },
        _ => return usage(),
    };
    match done {
        Ok(()) => ExitCode::SUCCESS,
        Err(fault) => {
            eprintln!("independent: {fault}");
            ExitCode::FAILURE
        }
    }
}

/// Prints a survey and tells what never occurred; nothing if there is no such survey.
fn surveyed(survey: &str, seed: u64, count: u64) -> Option<io::Result<()>> {
    let (lines, missing) = match survey {
        "survey" => {
            let survey = survey::Survey::of(seed, count);
            (survey.to_string(), survey.nothing_missing())
        }
        "survey-pairs" => {
            let survey = survey_pairs::PairSurvey::of(seed, count);
            (survey.to_string(), survey.nothing_missing())
        }
        _ => {
            let tally = match survey {
                "survey-runs" => survey_runs::survey(seed, count),
                "survey-committee" => survey_committee::survey(seed, count),
                "survey-tickets" => survey_tickets::survey(seed, count),
                "survey-screen" => survey_screen::survey(seed, count),
                "survey-entries" => survey_entered::survey(seed, count),
                "survey-statements" => survey_statements::survey(seed, count),
                "survey-lists" => survey_lists::survey(seed, count),
                _ => return None,
            };
            (tally.to_string(), tally.nothing_missing())
        }
    };
    Some(print(&lines).and(missing))
}

fn usage() -> ExitCode {
    eprintln!("{USAGE}");
    ExitCode::from(2)
}

fn standard_input() -> io::Result<Vec<u8>> {
    let mut file = vec![];
    io::stdin().read_to_end(&mut file)?;
    Ok(file)
}

fn read_pair(morning: &str, noon: &str) -> io::Result<(Vec<u8>, Vec<u8>)> {
    Ok((fs::read(morning)?, fs::read(noon)?))
}

fn print(lines: &str) -> io::Result<()> {
    io::stdout().write_all(lines.as_bytes())
}

/// "Per contract `C` and the eight numbers, then `T` and the total, or only `R`, refusal and record."
fn figure_lines(file: &[u8]) -> String {
    let mut lent = [0; MOST_FIGURES];
    match figures(file, &mut lent) {
        Ok(written) => {
            let (total, contracts) = lent[..written].split_last().expect("the total is written");
            let mut lines: String =
                contracts.chunks(8).map(|contract| line("C", contract)).collect();
            lines += &line("T", &[*total]);
            lines
        }
        Err(refusal) => format!("{refusal}\n"),
    }
}

/// What is printed for the joined account, or only `R`, file, refusal and record.
fn joined_lines(morning: &[u8], noon: &[u8]) -> String {
    match joined::join(morning, noon) {
        Ok(file) => figure_lines(&file),
        Err(refusal) => format!("{refusal}\n"),
    }
}

/// `L` and the call, or only `R`, file, refusal and record.
fn call_line(morning: &[u8], noon: &[u8], cover: Cover) -> String {
    match joined::call(morning, noon, cover) {
        Ok(call) => line("L", &[call.0]),
        Err(refusal) => format!("{refusal}\n"),
    }
}

fn check_line(file: &[u8]) -> String {
    match check(file) {
        Ok(_) => "A\n".to_string(),
        Err(refusal) => format!("{refusal}\n"),
    }
}

/// `P net used unused` per prompt, or per contract in question 16, then `S first second` per spread,
/// then `N takes`.
fn book_lines(file: &[u8], question: u64) -> String {
    match check(file).and_then(|account| held_book(&account, question)) {
        Ok(book) => {
            let mut lines = String::new();
            for prompt in &book.lines {
                lines += &line("P", &[prompt.net.0, prompt.used.0, prompt.unused.0]);
            }
            for [first, second] in &book.steps {
                lines += &line("S", &[first.number.0, second.number.0]);
            }
            lines + &line("N", &[book.takes() as i64])
        }
        Err(refusal) => format!("{refusal}\n"),
    }
}

/// The lines of an answer, or only `R`, refusal and record.
fn told(lines: Result<String, Refusal>) -> String {
    lines.unwrap_or_else(|refusal| format!("{refusal}\n"))
}

/// For each contract `C` and its figures, then the lines of its delta book; then those of the
/// intercontract table, if it has entries; then `T` and the total.
fn account_lines(file: &[u8]) -> Result<String, Refusal> {
    let account = check(file)?;
    let figures = margin::figures_of(&account);
    let mut lines = String::new();
    for (contract, figures) in account.contracts.iter().zip(&figures) {
        lines += &line("C", &figures.numbers());
        lines += &contract_lines(contract, &held_book(&account, contract.number as u64)?);
    }
    if !account.entries.is_empty() {
        lines += &table_lines(&account, &held_book(&account, INTERCONTRACT)?);
    }
    Ok(lines + &line("T", &[margin::total(&figures).0]))
}

fn question_lines(file: &[u8], question: u64) -> Result<String, Refusal> {
    let account = check(file)?;
    let book = held_book(&account, question)?;
    Ok(match account.contracts.iter().find(|contract| contract.number as u64 == question) {
        Some(contract) => contract_lines(contract, &book),
        None => table_lines(&account, &book),
    })
}

fn contract_lines(contract: &Contract, book: &Book) -> String {
    let prompts: Vec<[i64; 2]> =
        contract.prompts.iter().map(|prompt| [prompt.day, prompt.tier]).collect();
    let spreads: Vec<(Vec<Leg>, i64)> =
        contract.spreads.iter().map(|spread| (spread.legs.clone(), spread.rate.0)).collect();
    book_records(contract.number, &prompts, &spreads, book)
}

/// A contract is a prompt without a day, its number the tier; an entry's percent stands for the rate.
fn table_lines(account: &Account, book: &Book) -> String {
    let contracts: Vec<[i64; 2]> =
        account.contracts.iter().map(|contract| [0, contract.number]).collect();
    let entries: Vec<(Vec<Leg>, i64)> =
        account.entries.iter().map(|entry| (entry.legs(), entry.percent)).collect();
    book_records(INTERCONTRACT as i64, &contracts, &entries, book)
}

/// `P question place day tier net used unused` per prompt; per spread `S question place legs`, each
/// leg's `tier side ratio`, then `rate first second`; after it `G question spread step place amount`
/// for whatever its steps take of a prompt; then `N question takes most`.
fn book_records(
    question: i64,
    prompts: &[[i64; 2]],
    spreads: &[(Vec<Leg>, i64)],
    book: &Book,
) -> String {
    let mut lines = String::new();
    for (place, ([day, tier], delta)) in (1..).zip(prompts.iter().zip(&book.lines)) {
        let numbers = [delta.net.0, delta.used.0, delta.unused.0];
        lines += &line("P", &[&[question, place, *day, *tier][..], &numbers].concat());
    }
    for (spread, ((legs, rate), steps)) in (1..).zip(spreads.iter().zip(&book.steps)) {
        let mut numbers = vec![question, spread, legs.len() as i64];
        for leg in legs {
            numbers.extend([leg.tier, if leg.side == Side::A { 1 } else { 2 }, leg.ratio]);
        }
        numbers.extend([*rate, steps[0].number.0, steps[1].number.0]);
        lines += &line("S", &numbers);
        for (number, step) in (1..).zip(steps) {
            for (place, given) in (1..).zip(&step.given).filter(|(_, given)| given.0 != 0) {
                lines += &line("G", &[question, spread, number, place, given.0]);
            }
        }
    }
    let legs: usize = spreads.iter().map(|(legs, _)| legs.len()).sum();
    let most = prompts.len() + 2 * legs;
    lines + &line("N", &[question, book.takes() as i64, most as i64])
}

fn line(letter: &str, numbers: &[i64]) -> String {
    let numbers: Vec<String> = numbers.iter().map(i64::to_string).collect();
    format!("{letter} {}\n", numbers.join(" "))
}
