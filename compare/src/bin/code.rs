//! code SEED COUNT [FIRST]: puts COUNT generated accounts, from index FIRST on, to the proved library and to the independent
//! program: the check, how many numbers each answer needs, the figures, all the delta books, who paid in each of them,
//! questions that no account lists, and all questions at once, with enough numbers lent and with random numbers of them.
//! Refusal, record and every lent number afterwards must agree, and nothing beyond the lent numbers may change.

use compare::asking::{self, same, Run};
use felgotany::Outcome;
use independent::book::Book;
use independent::generate::{self, Random};
use independent::refusal::TOO_FEW_LENT;
use independent::{held_book, Account, Refusal};
use std::process::ExitCode;

/// The refusals of one file, 12 and 13 being those of two.
const REFUSALS: usize = 15;
const OF_TWO_FILES: [usize; 2] = [12, 13];
const MOST_NUMBERS: usize = 161;
/// 32 spreads of two steps over 32 prompts.
const MOST_USES: usize = 2048;
/// The books of the sixteen contracts and of the intercontract table.
const BOOKS: usize = 17;
/// The sixteen contracts, the intercontract table, and one more that no account lists.
const QUESTIONS: std::ops::RangeInclusive<u64> = 0..=17;
/// How many further questions are put to an account with random numbers lent.
const RANDOM_QUESTIONS: usize = 3;
/// From so many accounts on, each refusal is expected to occur.
const ALL_OCCUR: u64 = 2_000;

fn main() -> ExitCode {
    let Some(run) = Run::of_arguments() else {
        eprintln!("usage: code SEED COUNT [FIRST]");
        return ExitCode::from(2);
    };
    let mut tally = Tally::default();
    let differences = run.differences(|index| compare_account(run.seed, index, &mut tally));
    tally.print(run, differences);
    if differences == 0 && (run.count < ALL_OCCUR || tally.nothing_missing()) {
        ExitCode::SUCCESS
    } else {
        ExitCode::FAILURE
    }
}

#[derive(Default)]
struct Tally {
    files: [u64; REFUSALS + 1],
    answers: [u64; REFUSALS + 1],
    numbers: u64,
}

impl Tally {
    fn print(&self, Run { seed, count, first }: Run, differences: usize) {
        println!("seed {seed}, {count} accounts from index {first}");
        println!("accounts: {}", line(&self.files));
        println!("answers: {}", line(&self.answers));
        println!("{} lent numbers compared, {differences} differences", self.numbers);
    }

    fn nothing_missing(&self) -> bool {
        let missing: Vec<usize> =
            (0..=REFUSALS).filter(|number| !OF_TWO_FILES.contains(number)).filter(|&number| self.answers[number] == 0).collect();
        if !missing.is_empty() {
            println!("never occurred: {missing:?}");
        }
        missing.is_empty()
    }
}

/// How many were accepted, and how many were given each refusal.
fn line(counts: &[u64; REFUSALS + 1]) -> String {
    let refused: String = (1..=REFUSALS).filter(|&n| counts[n] > 0).map(|n| format!(", refusal {n}: {}", counts[n])).collect();
    format!("{} accepted{refused}", counts[0])
}

fn told(refusal: Refusal) -> Outcome {
    Outcome { refusal: refusal.number as usize, record: refusal.record }
}

const ACCEPTED: Outcome = Outcome { refusal: 0, record: 0 };

fn compare_account(seed: u64, index: u64, tally: &mut Tally) -> Result<(), String> {
    let file = generate::account(seed, index);
    let mut random = Random::new(!seed, index);
    let checked = independent::check(&file).map_err(told);
    let verdict = checked.as_ref().err().copied().unwrap_or(ACCEPTED);
    same("check", felgotany::check(&file), verdict)?;
    tally.files[verdict.refusal] += 1;
    tally.answers[verdict.refusal] += 1;

    let figures = needed(|lent| independent::figures(&file, lent));
    same("figures needed", felgotany::figures_needed(&file), figures)?;
    for lent in [figures + random.below(3) as usize, generate::lent(&mut random, figures)] {
        let proved = |lent: &mut [i64]| felgotany::figures(&file, lent);
        let second = |lent: &mut [i64]| outcome(independent::figures(&file, lent));
        ask("figures", lent, proved, second, &mut random, tally)?;
    }

    // every book and who paid in it, of the account as the independent program holds it
    for question in QUESTIONS {
        let book = checked.as_ref().map_err(|&refused| refused).and_then(|account| held_book(account, question).map_err(told));
        let at = question as usize;
        let numbers = book.as_ref().map(|book| book.numbers()).map_err(|&refused| refused);
        same(&format!("book {question} needed"), felgotany::book_needed(&file, at), numbers.as_ref().map_or(0, Vec::len))?;
        ask_whole(&format!("book {question}"), &numbers, |lent| felgotany::book(&file, at, lent), &mut random, tally)?;
        let uses = book.map(|book| book.uses());
        same(&format!("uses {question} needed"), felgotany::uses_needed(&file, at), uses.as_ref().map_or(0, Vec::len))?;
        ask_whole(&format!("uses {question}"), &uses, |lent| felgotany::uses(&file, at, lent), &mut random, tally)?;
    }

    // all questions at once, of the file held
    let all = [figures, BOOKS * MOST_NUMBERS, BOOKS * MOST_USES];
    for lent in [all, all.map(|needed| generate::lent(&mut random, needed))] {
        let proved = |lent_for: [&mut [i64]; 3]| {
            let [figures, books, uses] = lent_for;
            let outcomes = felgotany::all(&file, figures, books, uses);
            [outcomes.figures, outcomes.books, outcomes.uses]
        };
        let second = |lent_for: [&mut [i64]; 3]| {
            let [figures, books, uses] = lent_for;
            [
                outcome(independent::figures(&file, figures)),
                in_places(&checked, MOST_NUMBERS, Book::numbers, books),
                in_places(&checked, MOST_USES, Book::uses, uses),
            ]
        };
        ask_each("all questions", lent, proved, second, &mut random, tally)?;
    }

    for _ in 0..RANDOM_QUESTIONS {
        let question = generate::question(&mut random);
        let second = |lent: &mut [i64]| independent::book(&file, question, lent);
        let lent = generate::lent(&mut random, needed(second));
        let proved = |lent: &mut [i64]| felgotany::book(&file, question as usize, lent);
        ask(&format!("book {question}"), lent, proved, |lent| outcome(second(lent)), &mut random, tally)?;
        let second = |lent: &mut [i64]| independent::uses(&file, question, lent);
        let lent = generate::lent(&mut random, needed(second));
        let proved = |lent: &mut [i64]| felgotany::uses(&file, question as usize, lent);
        ask(&format!("uses {question}"), lent, proved, |lent| outcome(second(lent)), &mut random, tally)?;
    }
    Ok(())
}

/// Puts a question with as many numbers lent as its answer has, or a few more.
fn ask_whole(
    question: &str,
    answer: &Result<Vec<i64>, Outcome>,
    proved: impl Fn(&mut [i64]) -> Outcome,
    random: &mut Random,
    tally: &mut Tally,
) -> Result<(), String> {
    let second = |lent: &mut [i64]| match answer {
        Ok(numbers) => {
            lent[..numbers.len()].copy_from_slice(numbers);
            ACCEPTED
        }
        Err(refused) => *refused,
    };
    let lent = answer.as_ref().map_or(0, Vec::len) + random.below(3) as usize;
    ask(question, lent, proved, second, random, tally)
}

/// What an account answers to all questions at once, each in a place of `width` numbers.
fn in_places(checked: &Result<Account, Outcome>, width: usize, numbers: impl Fn(&Book) -> Vec<i64>, lent: &mut [i64]) -> Outcome {
    let account = match checked {
        Ok(account) => account,
        Err(refused) => return *refused,
    };
    if lent.len() < BOOKS * width {
        return told(Refusal { number: TOO_FEW_LENT, record: account.records });
    }
    for (question, place) in lent.chunks_exact_mut(width).take(BOOKS).enumerate() {
        if let Ok(book) = held_book(account, question as u64) {
            let numbers = numbers(&book);
            place[..numbers.len()].copy_from_slice(&numbers);
        }
    }
    ACCEPTED
}

fn outcome(answer: Result<usize, Refusal>) -> Outcome {
    answer.map_or_else(told, |_| ACCEPTED)
}

/// How many numbers an answer has, 0 for a refusal.
fn needed(ask: impl Fn(&mut [i64]) -> Result<usize, Refusal>) -> usize {
    ask(&mut [0; MOST_USES]).unwrap_or(0)
}

/// Puts a question to both with so many numbers lent.
fn ask(
    question: &str,
    lent: usize,
    proved: impl Fn(&mut [i64]) -> Outcome,
    second: impl Fn(&mut [i64]) -> Outcome,
    random: &mut Random,
    tally: &mut Tally,
) -> Result<(), String> {
    ask_each(question, [lent], |[lent]| [proved(lent)], |[lent]| [second(lent)], random, tally)
}

/// The same with numbers lent for several answers.
fn ask_each<const ANSWERS: usize>(
    question: &str,
    lent: [usize; ANSWERS],
    proved: impl Fn([&mut [i64]; ANSWERS]) -> [Outcome; ANSWERS],
    second: impl Fn([&mut [i64]; ANSWERS]) -> [Outcome; ANSWERS],
    random: &mut Random,
    tally: &mut Tally,
) -> Result<(), String> {
    let outcomes = asking::ask_each(question, lent, proved, second, random)?;
    outcomes.iter().for_each(|outcome| tally.answers[outcome.refusal] += 1);
    tally.numbers += lent.iter().sum::<usize>() as u64;
    Ok(())
}
