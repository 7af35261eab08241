//! margin [-b QUESTION | -u QUESTION] [-l NUMBERS] [FILE]: the figures of an account file, or the delta book of a question as
//! one line, or what each step takes of each prompt there, or what is refused. Without FILE the account has no records.
//! Memory for NUMBERS numbers is provided for the answer, or for as many as it needs.
//!
//! margin -n NOON [-l NUMBERS] [FILE]: the figures of FILE, the morning's, joined with a noon file.
//! margin -n NOON -c LAST THRESHOLD COLLATERAL [FILE]: the call on them. A refusal of two files says which first.
//!
//! What is refused is also said in words on standard error. Exit status: 0 answered, 1 refused, 2 called wrongly, 3 something
//! could not be read or written.

use felgotany::refusals::rule;
use felgotany::{Outcome, Pair, PairOutcome, TABLE};
use std::io::Write;
use std::process::ExitCode;

/// The exit status and what is told where there is no answer.
type Fault = (u8, String);

/// What is printed, and the refusal that it is, or 0.
type Answer = Result<(String, usize), Fault>;

enum Asked {
    Figures,
    Book(usize),
    Uses(usize),
}

/// What the words of the call ask for.
#[derive(Default)]
struct Words {
    asked: Option<Asked>,
    lent: Option<usize>,
    name: Option<String>,
    noon: Option<String>,
    amounts: Option<[i64; 3]>,
}

fn line(letter: char, numbers: &[i64]) -> String {
    let numbers: String = numbers.iter().map(|number| format!(" {number}")).collect();
    format!("{letter}{numbers}\n")
}

fn figures(numbers: &[i64]) -> String {
    let (contracts, total) = numbers.split_at(numbers.len() - numbers.len() % 8);
    contracts.chunks(8).map(|contract| line('C', contract)).chain([line('T', total)]).collect()
}

fn pair_refused(PairOutcome { file, refusal, record }: PairOutcome) -> Answer {
    Ok((format!("R {file} {refusal} {record}\n"), refusal))
}

/// How many numbers the figures of the joined account need: a file supplies each contract that is listed.
fn joined_needed(pair: Pair) -> usize {
    1 + 8 * (0..TABLE).filter(|&contract| pair.prompts(contract).file != 0).count()
}

fn joined(pair: Pair, lent: Option<usize>) -> Answer {
    let needed = joined_needed(pair);
    let mut out = vec![0; lent.unwrap_or(needed)];
    match pair.figures(&mut out) {
        PairOutcome { refusal: 0, .. } => Ok((figures(&out[..needed]), 0)),
        outcome => pair_refused(outcome),
    }
}

fn call(pair: Pair, [last, threshold, collateral]: [i64; 3]) -> Answer {
    let called = pair.call(last, threshold, collateral);
    match called.outcome.refusal {
        0 => Ok((format!("L {}\n", called.call), 0)),
        _ => pair_refused(called.outcome),
    }
}

/// The answer of one file: its figures, or the book or the uses of a question.
fn answer(file: &[u8], asked: Asked, lent: Option<usize>) -> Answer {
    let needed = match asked {
        Asked::Figures => felgotany::figures_needed(file),
        Asked::Book(question) => felgotany::book_needed(file, question),
        Asked::Uses(question) => felgotany::uses_needed(file, question),
    };
    let mut out = vec![0; lent.unwrap_or(needed)];
    let outcome = match asked {
        Asked::Figures => felgotany::figures(file, &mut out),
        Asked::Book(question) => felgotany::book(file, question, &mut out),
        Asked::Uses(question) => felgotany::uses(file, question, &mut out),
    };
    match (outcome, asked) {
        (Outcome { refusal: 0, .. }, Asked::Figures) => Ok((figures(&out[..needed]), 0)),
        (Outcome { refusal: 0, .. }, Asked::Book(_)) => Ok((line('B', &out[..needed]), 0)),
        (Outcome { refusal: 0, .. }, Asked::Uses(_)) => Ok((line('U', &out[..needed]), 0)),
        (Outcome { refusal, record }, _) => Ok((format!("R {refusal} {record}\n"), refusal)),
    }
}

fn wrongly(what: &str, why: &str) -> Fault {
    (2, format!("{what}: {why}"))
}

fn number<Number: std::str::FromStr>(word: Option<String>) -> Result<Number, Fault> {
    let word = word.unwrap_or_default();
    word.parse().map_err(|_| wrongly(&word, "not a whole number"))
}

/// A word may be said once.
fn once<Word>(place: &mut Option<Word>, word: Word, option: &str) -> Result<(), Fault> {
    match place.replace(word) {
        None => Ok(()),
        Some(_) => Err(wrongly(option, "said twice")),
    }
}

fn words() -> Result<Words, Fault> {
    let mut words = std::env::args().skip(1);
    let mut said = Words::default();
    while let Some(word) = words.next() {
        match word.as_str() {
            "-b" => once(&mut said.asked, Asked::Book(number(words.next())?), &word)?,
            "-u" => once(&mut said.asked, Asked::Uses(number(words.next())?), &word)?,
            "-l" => once(&mut said.lent, number(words.next())?, &word)?,
            "-n" => once(&mut said.noon, words.next().ok_or(wrongly(&word, "no file follows"))?, &word)?,
            "-c" => {
                let amounts = [number(words.next())?, number(words.next())?, number(words.next())?];
                once(&mut said.amounts, amounts, &word)?;
            }
            option if option.starts_with('-') => return Err(wrongly(option, "not an option")),
            _ => once(&mut said.name, word.clone(), &word)?,
        }
    }
    if said.amounts.is_some() && (said.noon.is_none() || said.lent.is_some()) {
        return Err(wrongly("-c", "needs -n, and provides its own memory"));
    }
    if said.asked.is_some() && said.noon.is_some() {
        return Err(wrongly("-n", "answers no question of a book here"));
    }
    Ok(said)
}

fn load(name: &str) -> Result<Vec<u8>, Fault> {
    std::fs::read(name).map_err(|fault| (3, format!("{name}: {fault}")))
}

fn asked() -> Answer {
    let Words { asked, lent, name, noon, amounts } = words()?;
    let file = name.map_or(Ok(vec![]), |name| load(&name))?;
    let Some(noon) = noon else {
        return answer(&file, asked.unwrap_or(Asked::Figures), lent);
    };
    let noon = load(&noon)?;
    let pair = Pair { morning: &file, noon: &noon };
    match amounts {
        Some(amounts) => call(pair, amounts),
        None => joined(pair, lent),
    }
}

/// Prints the answer, and says in words what is refused.
fn run() -> Result<(), Fault> {
    let (lines, refusal) = asked()?;
    let mut out = std::io::stdout();
    let written = out.write_all(lines.as_bytes()).and_then(|()| out.flush());
    written.map_err(|fault| (3, format!("standard output: {fault}")))?;
    rule(refusal).map_or(Ok(()), |rule| Err((1, rule.to_string())))
}

fn main() -> ExitCode {
    match run() {
        Ok(()) => ExitCode::SUCCESS,
        Err((status, told)) => {
            eprintln!("margin: {told}");
            ExitCode::from(status)
        }
    }
}
