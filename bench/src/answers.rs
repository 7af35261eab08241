//! The same questions put to the proved library, to the tuned program and to the plain one.

use bench::tuned::{self, BOOKS, MOST_BOOK, MOST_FIGURES, OUTCOME};
use independent::{held_book, joined, margin, run};

/// Memory lent for the figures and for all the books, each book with a place of its own.
#[derive(PartialEq)]
pub struct Lent {
    figures: [i64; MOST_FIGURES],
    books: [i64; BOOKS * MOST_BOOK],
}

impl Lent {
    pub fn new() -> Lent {
        Lent { figures: [-1; MOST_FIGURES], books: [-1; BOOKS * MOST_BOOK] }
    }

    /// The figures and all the books, each asked by itself.
    fn each<A, B>(
        &mut self,
        figures: impl FnOnce(&mut [i64]) -> A,
        book: impl Fn(usize, &mut [i64]) -> B,
    ) {
        figures(&mut self.figures);
        for (question, place) in self.books.chunks_exact_mut(MOST_BOOK).enumerate() {
            book(question, place);
        }
    }
}

/// A run of accounts, one behind the other, with their lengths.
pub struct Run {
    accounts: Vec<u8>,
    lengths: Vec<usize>,
}

impl Run {
    pub fn of(files: &[Vec<u8>]) -> Run {
        Run { accounts: files.concat(), lengths: files.iter().map(Vec::len).collect() }
    }
}

/// Memory lent for a run: for each account a place for its figures, and one for its refusal and record.
#[derive(PartialEq)]
pub struct Places {
    figures: Vec<i64>,
    outcomes: Vec<usize>,
}

impl Places {
    pub fn of(run: &Run) -> Places {
        let accounts = run.lengths.len();
        Places { figures: vec![-1; MOST_FIGURES * accounts], outcomes: vec![1; OUTCOME * accounts] }
    }
}

/// One of the three: it checks a file, and answers questions about it to lent memory.
pub trait Asked {
    fn check(file: &[u8]) -> usize;
    fn figures(file: &[u8], lent: &mut Lent);
    fn book(file: &[u8], question: usize, lent: &mut Lent);
    /// The figures and all the books of a file that is checked once.
    fn all(file: &[u8], lent: &mut Lent);
    /// The figures and all the books, the file being checked for each.
    fn each(file: &[u8], lent: &mut Lent);
    /// The figures of each account of a run.
    fn run(run: &Run, lent: &mut Places);
    /// The figures of a morning and a noon file joined.
    fn joined_figures(pair: &[Vec<u8>; 2], lent: &mut Lent);
    /// A book of a morning and a noon file joined.
    fn joined_book(pair: &[Vec<u8>; 2], question: usize, lent: &mut Lent);
}

pub struct Proved;

impl Asked for Proved {
    fn check(file: &[u8]) -> usize {
        felgotany::check(file).refusal
    }

    fn figures(file: &[u8], lent: &mut Lent) {
        felgotany::figures(file, &mut lent.figures);
    }

    fn book(file: &[u8], question: usize, lent: &mut Lent) {
        felgotany::book(file, question, &mut lent.books);
    }

    fn all(file: &[u8], lent: &mut Lent) {
        // no memory for who paid
        felgotany::all(file, &mut lent.figures, &mut lent.books, &mut []);
    }

    fn each(file: &[u8], lent: &mut Lent) {
        lent.each(
            |lent| felgotany::figures(file, lent),
            |question, lent| felgotany::book(file, question, lent),
        );
    }

    fn run(run: &Run, lent: &mut Places) {
        felgotany::run(&run.accounts, &run.lengths, &mut lent.figures, &mut lent.outcomes);
    }

    fn joined_figures([morning, noon]: &[Vec<u8>; 2], lent: &mut Lent) {
        felgotany::Pair { morning, noon }.figures(&mut lent.figures);
    }

    fn joined_book([morning, noon]: &[Vec<u8>; 2], question: usize, lent: &mut Lent) {
        felgotany::Pair { morning, noon }.book(question, &mut lent.books);
    }
}

pub struct Tuned;

impl Asked for Tuned {
    fn check(file: &[u8]) -> usize {
        tuned::check(file).map_or_else(|refusal| refusal.number.into(), |()| 0)
    }

    fn figures(file: &[u8], lent: &mut Lent) {
        _ = tuned::figures(file, &mut lent.figures);
    }

    fn book(file: &[u8], question: usize, lent: &mut Lent) {
        _ = tuned::book(file, question as u64, &mut lent.books);
    }

    fn all(file: &[u8], lent: &mut Lent) {
        _ = tuned::all(file, &mut lent.figures, &mut lent.books);
    }

    fn each(file: &[u8], lent: &mut Lent) {
        lent.each(
            |lent| tuned::figures(file, lent),
            |question, lent| tuned::book(file, question as u64, lent),
        );
    }

    fn run(run: &Run, lent: &mut Places) {
        _ = tuned::run(&run.accounts, &run.lengths, &mut lent.figures, &mut lent.outcomes);
    }

    fn joined_figures([morning, noon]: &[Vec<u8>; 2], lent: &mut Lent) {
        _ = tuned::joined_figures(morning, noon, &mut lent.figures);
    }

    fn joined_book([morning, noon]: &[Vec<u8>; 2], question: usize, lent: &mut Lent) {
        _ = tuned::joined_book(morning, noon, question as u64, &mut lent.books);
    }
}

pub struct Plain;

impl Asked for Plain {
    fn check(file: &[u8]) -> usize {
        independent::check(file).map_or_else(|refusal| refusal.number.into(), |_| 0)
    }

    fn figures(file: &[u8], lent: &mut Lent) {
        _ = independent::figures(file, &mut lent.figures);
    }

    fn book(file: &[u8], question: usize, lent: &mut Lent) {
        _ = independent::book(file, question as u64, &mut lent.books);
    }

    fn all(file: &[u8], lent: &mut Lent) {
        let Ok(account) = independent::check(file) else { return };
        let figures = margin::figures_of(&account);
        let numbers = figures.iter().flat_map(|contract| contract.numbers());
        let answer = numbers.chain([margin::total(&figures).0]);
        lent.figures.iter_mut().zip(answer).for_each(|(place, number)| *place = number);
        for (question, place) in lent.books.chunks_exact_mut(MOST_BOOK).enumerate() {
            if let Ok(book) = held_book(&account, question as u64) {
                let numbers = book.numbers();
                place[..numbers.len()].copy_from_slice(&numbers);
            }
        }
    }

    fn each(file: &[u8], lent: &mut Lent) {
        lent.each(
            |lent| independent::figures(file, lent),
            |question, lent| independent::book(file, question as u64, lent),
        );
    }

    fn run(Run { accounts, lengths }: &Run, lent: &mut Places) {
        let mut left = &accounts[..];
        let figures = lent.figures.chunks_exact_mut(MOST_FIGURES);
        let places = figures.zip(lent.outcomes.chunks_exact_mut(OUTCOME));
        for (&length, (figures, outcome)) in lengths.iter().zip(places) {
            let (file, after) = left.split_at(length);
            left = after;
            match run::answer(file) {
                Ok(numbers) => {
                    figures[..numbers.len()].copy_from_slice(&numbers);
                    outcome.fill(0);
                }
                Err(refusal) => outcome.copy_from_slice(&[refusal.number.into(), refusal.record]),
            }
        }
    }

    fn joined_figures([morning, noon]: &[Vec<u8>; 2], lent: &mut Lent) {
        _ = joined::figures(morning, noon, &mut lent.figures);
    }

    fn joined_book([morning, noon]: &[Vec<u8>; 2], question: usize, lent: &mut Lent) {
        _ = joined::book(morning, noon, question as u64, &mut lent.books);
    }
}
