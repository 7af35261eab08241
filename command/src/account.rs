//! An accepted account with the answers of the proved library: the figures, and the delta books with who paid in each. Days,
//! tiers, legs and rates are read from its records.

use felgotany::{Outcome, Pair, PairOutcome, MOST_BOOK, MOST_FIGURES, MOST_USES, QUESTIONS, TABLE};
use independent::currency::{rates, Rate};
use independent::format::*;

/// How many figures a contract has.
const FIGURES: usize = 8;

pub struct Account {
    pub records: usize,
    pub contracts: Vec<Contract>,
    /// The delta book of the intercontract spreads, where the account has any.
    pub table: Option<Book>,
    pub rates: Vec<Rate>,
    pub total: i64,
}

/// A contract's figures, as the library gives them, its unit in hundredths, the currencies of its rows but for the margin's, and its
/// delta book.
pub struct Contract {
    pub unit: i64,
    pub currencies: Vec<i64>,
    pub figures: [i64; FIGURES],
    pub book: Book,
}

pub struct Book {
    pub question: usize,
    pub prompts: Vec<Prompt>,
    pub spreads: Vec<Spread>,
    /// How often a prompt was touched.
    pub touches: i64,
}

/// A prompt by its place from 1. In the table a contract is a tier with one prompt, which has no day.
pub struct Prompt {
    pub place: usize,
    pub day: i64,
    pub tier: i64,
    pub net: i64,
    pub used: i64,
    pub unused: i64,
}

/// A spread by its place from 1. In the table its rate is the percent of the credit.
pub struct Spread {
    pub place: usize,
    pub legs: Vec<Leg>,
    pub rate: i64,
    pub steps: [Step; 2],
}

/// A leg; its ratio is in tenths or whole.
pub struct Leg {
    pub tier: i64,
    pub side: i64,
    pub ratio: i64,
    pub tenths: bool,
}

impl Leg {
    /// How many parts of its ratio make a whole.
    pub fn parts(&self) -> i128 {
        if self.tenths {
            10
        } else {
            1
        }
    }

    /// Which side it takes in a step, counted from 0: "first A legs take long and B legs short, then the reverse".
    pub fn takes_long(&self, step: usize) -> bool {
        (self.side == SIDE_A) == (step == 0)
    }
}

/// How many spreads a step forms, and what it takes of each prompt.
pub struct Step {
    pub formed: i64,
    pub taken: Vec<i64>,
}

impl Account {
    pub fn of_file(file: &[u8]) -> Result<Account, Outcome> {
        let mut figures = [0; MOST_FIGURES];
        let mut books = vec![0; QUESTIONS * MOST_BOOK];
        let mut uses = vec![0; QUESTIONS * MOST_USES];
        let outcomes = felgotany::all(file, &mut figures, &mut books, &mut uses);
        for outcome in [outcomes.figures, outcomes.books, outcomes.uses] {
            if outcome.refusal != 0 {
                return Err(outcome);
            }
        }
        let place = |question: usize| Ok((&books[question * MOST_BOOK..], &uses[question * MOST_USES..]));
        Account::of_answers(&records(file), &figures, place)
    }

    /// The account joined of two files.
    pub fn of_pair(pair: Pair) -> Result<Account, PairOutcome> {
        let mut figures = [0; MOST_FIGURES];
        answered(pair.figures(&mut figures))?;
        let book = |question: usize| {
            let (mut book, mut uses) = ([0; MOST_BOOK], vec![0; MOST_USES]);
            answered(pair.book(question, &mut book))?;
            answered(pair.uses(question, &mut uses))?;
            Ok((book, uses))
        };
        Account::of_answers(&joined(pair), &figures, book)
    }

    /// The account with these records, figures and books.
    fn of_answers<Numbers: AsRef<[i64]>, Uses: AsRef<[i64]>, Refused>(
        records: &[Record],
        figures: &[i64],
        answer: impl Fn(usize) -> Result<(Numbers, Uses), Refused>,
    ) -> Result<Account, Refused> {
        let book = |question: usize| {
            let (numbers, uses) = answer(question)?;
            Ok(Book::of_answers(question, records, numbers.as_ref(), uses.as_ref()))
        };
        let owns: Vec<Record> = of_kind(records, CONTRACT).collect();
        let mut contracts = vec![];
        for (own, figures) in owns.iter().zip(figures.chunks_exact(FIGURES)) {
            let figures: [i64; FIGURES] = figures.try_into().expect("eight figures");
            let unit = own.get(UNIT).max(1);
            let currencies = currencies(&records_of(records, ROW, figures[0] as usize));
            contracts.push(Contract { unit, currencies, figures, book: book(figures[0] as usize)? });
        }
        let spread = of_kind(records, ENTRY).next().is_some();
        let table = if spread { Some(book(TABLE)?) } else { None };
        let total = figures[FIGURES * owns.len()];
        Ok(Account { records: records.len(), contracts, table, rates: rates(records), total })
    }
}

/// The currencies of rows but for the margin's, each once, in their order.
fn currencies(rows: &[Record]) -> Vec<i64> {
    let mut currencies: Vec<i64> = rows.iter().map(|row| row.get(CURRENCY)).filter(|of| *of != MARGIN_CURRENCY).collect();
    currencies.sort_unstable();
    currencies.dedup();
    currencies
}

/// A currency's rate for losses or for gains, in hundred-millionths: the spot rate "raised by that percent" or "lowered by it".
pub fn adjusted(rate: &Rate, loss: bool) -> i64 {
    let percent = if loss { 100 + rate.adjustment_percent } else { 100 - rate.adjustment_percent };
    rate.spot * percent
}

impl Book {
    /// The delta book of one question.
    pub fn of_file(file: &[u8], question: usize) -> Result<Book, Outcome> {
        let (mut book, mut uses) = ([0; MOST_BOOK], vec![0; MOST_USES]);
        for outcome in [felgotany::book(file, question, &mut book), felgotany::uses(file, question, &mut uses)] {
            if outcome.refusal != 0 {
                return Err(outcome);
            }
        }
        Ok(Book::of_answers(question, &records(file), &book, &uses))
    }

    /// The same of the account joined of two files.
    pub fn of_pair(pair: Pair, question: usize) -> Result<Book, PairOutcome> {
        let (mut book, mut uses) = ([0; MOST_BOOK], vec![0; MOST_USES]);
        answered(pair.book(question, &mut book))?;
        answered(pair.uses(question, &mut uses))?;
        Ok(Book::of_answers(question, &joined(pair), &book, &uses))
    }

    /// Three numbers for each prompt, two for each spread and how often a prompt was touched; and of each step one use for each prompt.
    fn of_answers(question: usize, records: &[Record], numbers: &[i64], uses: &[i64]) -> Book {
        let prompt_records = prompts_of(records, question);
        let (of_prompts, of_spreads) = numbers.split_at(3 * prompt_records.len());
        let prompts: Vec<Prompt> = prompt_records
            .iter()
            .zip(of_prompts.chunks_exact(3))
            .enumerate()
            .map(|(at, (record, numbers))| Prompt::of(question, at + 1, *record, numbers))
            .collect();
        let each = prompts.len();
        let spread_records = spreads_of(records, question);
        let touches = of_spreads[2 * spread_records.len()];
        let spreads = spread_records
            .iter()
            .enumerate()
            .map(|(at, record)| {
                let step = |step: usize| Step {
                    formed: of_spreads[2 * at + step],
                    taken: uses[(2 * at + step) * each..][..each].to_vec(),
                };
                Spread::of(question, at + 1, *record, [step(0), step(1)])
            })
            .collect();
        Book { question, prompts, spreads, touches }
    }
}

impl Book {
    /// "The book's prompts (contracts in 16) plus all legs counted over both steps of every spread": never fewer than the touches.
    pub fn most_touches(&self) -> usize {
        self.prompts.len() + 2 * self.spreads.iter().map(|spread| spread.legs.len()).sum::<usize>()
    }
}

impl Prompt {
    fn of(question: usize, place: usize, record: Record, numbers: &[i64]) -> Prompt {
        let (day, tier) = match question {
            TABLE => (0, record.get(NUMBER)),
            _ => (record.get(DAY), record.get(PROMPT_TIER)),
        };
        Prompt { place, day, tier, net: numbers[0], used: numbers[1], unused: numbers[2] }
    }
}

impl Spread {
    fn of(question: usize, place: usize, record: Record, steps: [Step; 2]) -> Spread {
        let tenths = question == TABLE && record.get(TENTHS) == TENTHS.most;
        let leg = |tier, side, ratio| Leg { tier: record.get(tier), side, ratio: record.get(ratio), tenths };
        if question == TABLE {
            let legs = vec![leg(NUMBER, SIDE_A, FIRST_RATIO), leg(SECOND_NUMBER, SIDE_B, SECOND_RATIO)];
            return Spread { place, legs, rate: record.get(PERCENT), steps };
        }
        let legs =
            (0..legs_in_use(record.get(LEGS))).map(|at| leg(leg_tier(at), record.get(leg_side(at)), leg_ratio(at))).collect();
        Spread { place, legs, rate: record.get(SPREAD_RATE), steps }
    }
}

fn answered(outcome: PairOutcome) -> Result<(), PairOutcome> {
    match outcome.refusal {
        0 => Ok(()),
        _ => Err(outcome),
    }
}

pub fn of_kind<'a>(records: &'a [Record<'a>], kind: u8) -> impl Iterator<Item = Record<'a>> {
    records.iter().copied().filter(move |record| record.kind() == kind)
}

/// The records of a kind that are a contract's.
pub fn records_of<'a>(records: &'a [Record<'a>], kind: u8, contract: usize) -> Vec<Record<'a>> {
    of_kind(records, kind).filter(|record| record.get(NUMBER) == contract as i64).collect()
}

/// The records of the prompts that a question is about.
fn prompts_of<'a>(records: &'a [Record<'a>], question: usize) -> Vec<Record<'a>> {
    match question {
        TABLE => of_kind(records, CONTRACT).collect(),
        _ => records_of(records, PROMPT, question),
    }
}

/// The records of the spreads that a question is about.
fn spreads_of<'a>(records: &'a [Record<'a>], question: usize) -> Vec<Record<'a>> {
    match question {
        TABLE => of_kind(records, ENTRY).collect(),
        _ => records_of(records, SPREAD, question),
    }
}

/// The records of the joined account: the library says which file supplies a contract, and the intercontract spreads and currency
/// rates are the morning's.
pub fn joined(pair: Pair) -> Vec<Record> {
    let (morning, noon) = (records(pair.morning), records(pair.noon));
    let mut joined = vec![];
    for kind in CONTRACT..=SPREAD {
        for contract in 0..TABLE {
            let supplier = if pair.prompts(contract).file == felgotany::NOON { &noon } else { &morning };
            let of_contract = |record: &&Record| record.kind() == kind && record.get(NUMBER) == contract as i64;
            joined.extend(supplier.iter().filter(of_contract).copied());
        }
    }
    joined.extend(morning.iter().filter(|record| record.kind() > SPREAD).copied());
    joined
}
