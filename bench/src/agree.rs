//! The tuned program against the independent one on generated accounts: refusal, record and every lent
//! number, with enough numbers lent and with too few.

use crate::accounts;
use crate::tuned::{self, BOOKS, MOST_BOOK, MOST_FIGURES, OUTCOME};
use independent::format::{MOST_SPREADS, RECORD_BYTES};
use independent::generate::{self, Random};
use independent::refusal::*;
use independent::run::{accounts as accounts_of, answer};
use independent::{held_book, held_figures, joined, write, PairRefusal, Refusal};
use std::collections::BTreeMap;

const ACCOUNTS: u64 = 20_000;
const RUNS: u64 = 2_000;
const PAIRS: u64 = 1_500;
const DESKS: u64 = 3;
const SEED: u64 = 1;
/// The books, and questions that no account lists.
const QUESTIONS: [u64; 4] = [BOOKS as u64, 256, 1 << 32, u64::MAX];
const REFUSALS: usize = 15;
/// The refusals of two files.
const OF_PAIRS: [usize; 2] = [12, 13];

#[test]
fn agrees_on_generated_accounts() {
    let mut answers = [0; REFUSALS + 1];
    for index in 0..ACCOUNTS {
        let mut random = Random::new(!SEED, index);
        compare(&generate::account(SEED, index), &mut random, &mut answers);
    }
    let occurs = |number: usize| OF_PAIRS.contains(&number) || answers[number] > 0;
    assert!((0..=REFUSALS).all(occurs), "an answer never occurred: {answers:?}");
}

#[test]
fn agrees_on_full_tables() {
    let mut answers = [0; REFUSALS + 1];
    for spreads in 0..=MOST_SPREADS {
        compare(&accounts::table(spreads), &mut Random::new(!SEED, 0), &mut answers);
    }
}

#[test]
fn agrees_on_accounts_of_a_desk() {
    let mut answers = [0; REFUSALS + 1];
    for desk in accounts::DESKS {
        for file in desk.accounts(SEED, DESKS) {
            compare(&file, &mut Random::new(!SEED, 0), &mut answers);
        }
        for [morning, noon] in desk.pairs(SEED, DESKS) {
            compare_pair(&morning, &noon, &mut Random::new(!SEED, 0));
        }
    }
}

#[test]
fn agrees_on_generated_pairs() {
    let mut told = BTreeMap::new();
    for index in 0..PAIRS {
        let (morning, noon) = generate::pair(SEED, index);
        for refused in compare_pair(&morning, &noon, &mut Random::new(!SEED, index)) {
            *told.entry((refused.file, refused.number)).or_insert(0) += 1;
        }
    }
    let missing: Vec<_> = every_pair_refusal()
        .into_iter()
        .filter(|(file, number)| {
            *number != AMOUNT_OUT_OF_RANGE && !told.contains_key(&(*file, *number))
        })
        .collect();
    assert!(missing.is_empty(), "these never occurred: {missing:?}");
}

/// Every question of a pair, with enough numbers lent and with too few; gives the refusals.
fn compare_pair(morning: &[u8], noon: &[u8], random: &mut Random) -> Vec<PairRefusal> {
    let mut refused = vec![];
    let account = joined::account(morning, noon);
    let questions = (0..BOOKS as u64).chain(QUESTIONS).map(Some);
    for question in questions.chain([None]) {
        let tuned = |lent: &mut [i64]| match question {
            Some(question) => tuned::joined_book(morning, noon, question, lent),
            None => tuned::joined_figures(morning, noon, lent),
        };
        let plain = account.as_ref().map_err(|refusal| *refusal).and_then(|account| {
            match question {
                Some(question) => held_book(account, question).map(|book| book.numbers()),
                None => Ok(held_figures(account)),
            }
            .map(|numbers| (account, numbers))
            .map_err(|refusal| refusal.of(JOINED))
        });
        let needed = plain.as_ref().map_or(0, |(_, numbers)| numbers.len());
        for lent in [needed, generate::lent(random, needed)] {
            let mut by_tuned = numbers(random, lent);
            let mut by_plain = by_tuned.clone();
            let answer =
                plain.as_ref().map_err(|refusal| *refusal).and_then(|(account, numbers)| {
                    write(account, numbers, &mut by_plain).map_err(|refusal| refusal.of(JOINED))
                });
            assert_eq!(tuned(&mut by_tuned), answer);
            assert_eq!(by_tuned, by_plain);
            refused.extend(answer.err());
        }
    }
    refused
}

#[test]
fn agrees_on_generated_runs() {
    let mut told = [0; LENGTHS_DIFFER as usize + 1];
    for index in 0..RUNS {
        let mut random = Random::new(!SEED, index);
        let run = generate::run(SEED, index);
        let accounts = run.lengths.len();
        let (figures, outcomes) = (MOST_FIGURES * accounts, OUTCOME * accounts);
        let lent = (generate::lent(&mut random, figures), generate::lent(&mut random, outcomes));
        for (figures, outcomes) in [(figures, outcomes), lent] {
            let number = compare_run(&run, figures, outcomes, &mut random);
            told[usize::from(number)] += 1;
        }
    }
    let numbers = [0, TOO_FEW_LENT, LENGTHS_DIFFER];
    assert!(numbers.iter().all(|number| told[usize::from(*number)] > 0), "{told:?}");
}

/// A run with so many numbers lent, filled alike; gives the number of its refusal.
fn compare_run(run: &generate::Run, figures: usize, outcomes: usize, random: &mut Random) -> u8 {
    let lengths: Vec<usize> = run.lengths.iter().map(|&length| length as usize).collect();
    let before = (numbers(random, figures), vec![usize::MAX; outcomes]);
    let (mut by_tuned, mut by_plain) = (before.clone(), before);
    let plain = plain_run(run, &mut by_plain.0, &mut by_plain.1);
    assert_eq!(tuned::run(&run.bytes, &lengths, &mut by_tuned.0, &mut by_tuned.1), plain);
    assert_eq!(by_tuned, by_plain);
    plain.err().map_or(0, |refusal| refusal.number)
}

fn plain_run(
    run: &generate::Run,
    figures: &mut [i64],
    outcomes: &mut [usize],
) -> Result<(), Refusal> {
    let files = accounts_of(&run.bytes, &run.lengths)?;
    if figures.len() < MOST_FIGURES * files.len() || outcomes.len() < OUTCOME * files.len() {
        return Err(Refusal { number: TOO_FEW_LENT, record: 0 });
    }
    let places = figures.chunks_mut(MOST_FIGURES).zip(outcomes.chunks_mut(OUTCOME));
    for (file, (figures, outcome)) in files.iter().zip(places) {
        let told = match answer(file) {
            Ok(numbers) => {
                figures[..numbers.len()].copy_from_slice(&numbers);
                [0; OUTCOME]
            }
            Err(refusal) => [refusal.number.into(), refusal.record],
        };
        outcome.copy_from_slice(&told);
    }
    Ok(())
}

fn compare(file: &[u8], random: &mut Random, answers: &mut [u64; REFUSALS + 1]) {
    let checked = independent::check(file);
    assert_eq!(tuned::check(file), checked.as_ref().map(|_| ()).map_err(|refusal| *refusal));

    let needed = independent::figures(file, &mut [0; MOST_FIGURES]).unwrap_or(0);
    for lent in [needed, generate::lent(random, needed)] {
        let plain = |lent: &mut [i64]| independent::figures(file, lent);
        ask(lent, |lent| tuned::figures(file, lent), plain, random, answers);
    }

    for question in (0..BOOKS as u64).chain(QUESTIONS) {
        let book = checked.as_ref().map_err(|refusal| *refusal).and_then(|account| {
            held_book(account, question).map(|book| (account.records, book.numbers()))
        });
        let plain = |lent: &mut [i64]| match &book {
            Ok((record, numbers)) => match lent.get_mut(..numbers.len()) {
                Some(front) => {
                    front.copy_from_slice(numbers);
                    Ok(numbers.len())
                }
                None => Err(Refusal { number: TOO_FEW_LENT, record: *record }),
            },
            Err(refusal) => Err(*refusal),
        };
        let needed = book.as_ref().map_or(0, |(_, numbers)| numbers.len());
        for lent in [needed, generate::lent(random, needed)] {
            ask(lent, |lent| tuned::book(file, question, lent), plain, random, answers);
        }
    }

    for (figures, books) in [(MOST_FIGURES, BOOKS * MOST_BOOK), lent_for_all(random, needed)] {
        compare_all(file, figures, books, random);
    }
}

/// Too few numbers for the figures, for the books, for both, or for neither.
fn lent_for_all(random: &mut Random, needed: usize) -> (usize, usize) {
    let books = BOOKS * MOST_BOOK - random.place(2);
    (generate::lent(random, needed), books)
}

/// All questions at once are answered as each is by itself.
fn compare_all(file: &[u8], figures: usize, books: usize, random: &mut Random) {
    let before = numbers(random, figures + books);
    let (mut all, mut each) = (before.clone(), before);
    let (of_figures, of_books) = all.split_at_mut(figures);
    let told = tuned::all(file, of_figures, of_books);
    let (each_figures, each_books) = each.split_at_mut(figures);
    let figures = tuned::figures(file, each_figures).map(|_| ());
    let books = match tuned::check(file) {
        Ok(()) if each_books.len() < BOOKS * MOST_BOOK => {
            Err(Refusal { number: TOO_FEW_LENT, record: file.len() / RECORD_BYTES })
        }
        Ok(()) => {
            for (question, place) in each_books.chunks_exact_mut(MOST_BOOK).enumerate() {
                _ = tuned::book(file, question as u64, place);
            }
            Ok(())
        }
        Err(refusal) => Err(refusal),
    };
    assert_eq!(told, [figures, books]);
    assert_eq!(all, each);
}

/// Puts a question to both with so many numbers lent, filled alike.
fn ask(
    lent: usize,
    tuned: impl Fn(&mut [i64]) -> Result<usize, Refusal>,
    plain: impl Fn(&mut [i64]) -> Result<usize, Refusal>,
    random: &mut Random,
    answers: &mut [u64; REFUSALS + 1],
) {
    let mut by_tuned = numbers(random, lent);
    let mut by_plain = by_tuned.clone();
    let answer = plain(&mut by_plain);
    assert_eq!(tuned(&mut by_tuned), answer);
    assert_eq!(by_tuned, by_plain);
    answers[answer.err().map_or(0, |refusal| usize::from(refusal.number))] += 1;
}

fn numbers(random: &mut Random, count: usize) -> Vec<i64> {
    (0..count).map(|_| random.word() as i64).collect()
}
