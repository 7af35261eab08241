//! pairs SEED COUNT [FIRST]: puts COUNT generated pairs of a morning and a noon file, from index FIRST on, to the proved library
//! and to the independent program: the figures of the joined account, its delta books and who paid in each of them, questions
//! that no account lists, where the prompts of a contract stand, and the call; with exactly enough numbers lent, with more and
//! with too few. File, refusal, record and every lent number afterwards must agree, and nothing beyond the lent numbers may
//! change.

use compare::asking::{ask_each, same, Run};
use felgotany::{CallOutcome, Pair, PairOutcome, PromptPlace};
use independent::generate::{self, Random};
use independent::joined::{self, Cover};
use independent::margin::{figures_of, total};
use independent::refusal::{every_pair_refusal, JOINED};
use independent::units::Amount;
use independent::{held_book, held_figures, write, Account, PairRefusal, Refusal};
use std::collections::BTreeMap;
use std::process::ExitCode;

/// 32 spreads of two steps over 32 prompts.
const MOST_NUMBERS: usize = 2048;
/// How many questions are put to a pair with random numbers lent.
const RANDOM_QUESTIONS: usize = 2;
/// How many calls are asked of a pair.
const CALLS: usize = 6;
/// From so many pairs on, each refusal is expected to occur.
const ALL_OCCUR: u64 = 2_000;

fn main() -> ExitCode {
    let Some(run) = Run::of_arguments() else {
        eprintln!("usage: pairs SEED COUNT [FIRST]");
        return ExitCode::from(2);
    };
    let mut tally = Tally::default();
    let differences = run.differences(|index| compare_pair(run.seed, index, &mut tally));
    tally.print(run, differences);
    if differences == 0 && (run.count < ALL_OCCUR || tally.nothing_missing()) {
        ExitCode::SUCCESS
    } else {
        ExitCode::FAILURE
    }
}

/// How often there was each outcome, by file and refusal.
type Counts = BTreeMap<(usize, usize), u64>;

#[derive(Default)]
struct Tally {
    pairs: Counts,
    answers: Counts,
    calls: u64,
    numbers: u64,
}

impl Tally {
    fn print(&self, Run { seed, count, first }: Run, differences: usize) {
        println!("seed {seed}, {count} pairs from index {first}");
        println!("pairs: {}", line(&self.pairs));
        println!("answers: {}, calls above 0: {}", line(&self.answers), self.calls);
        println!(
            "{} pairs and {} lent numbers compared, {differences} differences",
            self.pairs.values().sum::<u64>(),
            self.numbers
        );
    }

    fn nothing_missing(&self) -> bool {
        let every = every_pair_refusal().into_iter().map(|(file, number)| (file.into(), number.into()));
        let missing: Vec<(usize, usize)> = every.chain([(0, 0)]).filter(|kind| !self.answers.contains_key(kind)).collect();
        if !missing.is_empty() {
            println!("never occurred, by file and refusal: {missing:?}");
        }
        if self.calls == 0 {
            println!("no call above 0 occurred");
        }
        missing.is_empty() && self.calls > 0
    }
}

fn count(counts: &mut Counts, outcome: PairOutcome) {
    *counts.entry((outcome.file, outcome.refusal)).or_default() += 1;
}

fn line(counts: &Counts) -> String {
    let told = |(&(file, refusal), count): (&(usize, usize), &u64)| match refusal {
        0 => format!("{count} accepted"),
        _ => format!("refusal {refusal} of file {file}: {count}"),
    };
    counts.iter().map(told).collect::<Vec<_>>().join(", ")
}

const ACCEPTED: PairOutcome = PairOutcome { file: 0, refusal: 0, record: 0 };

fn outcome<T>(answer: &Result<T, PairRefusal>) -> PairOutcome {
    match answer {
        Ok(_) => ACCEPTED,
        Err(refusal) => PairOutcome { file: refusal.file.into(), refusal: refusal.number.into(), record: refusal.record },
    }
}

fn compare_pair(seed: u64, index: u64, tally: &mut Tally) -> Result<(), String> {
    let (morning, noon) = generate::pair(seed, index);
    let (morning, noon) = (&morning[..], &noon[..]);
    let pair = Pair { morning, noon };
    let mut random = Random::new(!seed, index);
    let account = joined::account(morning, noon);
    count(&mut tally.pairs, outcome(&account));

    ask_held("figures", &account, |account| Ok(held_figures(account)), |lent| pair.figures(lent), &mut random, tally)?;
    for question in questions(&mut random) {
        let at = question as usize;
        let book = |account: &Account| held_book(account, question).map(|book| book.numbers());
        ask_held(&format!("book {question}"), &account, book, |lent| pair.book(at, lent), &mut random, tally)?;
        let uses = |account: &Account| held_book(account, question).map(|book| book.uses());
        ask_held(&format!("uses {question}"), &account, uses, |lent| pair.uses(at, lent), &mut random, tally)?;
        let part = joined::prompts(morning, noon, question);
        let place = PromptPlace { file: part.file.into(), first: part.first, records: part.records };
        same(&format!("prompts of contract {question}"), pair.prompts(at), place)?;
    }

    let figures = |lent: &mut [i64]| joined::figures(morning, noon, lent);
    ask_plain("figures", figures, |lent| pair.figures(lent), &mut random, tally)?;
    for _ in 0..RANDOM_QUESTIONS {
        let question = generate::question(&mut random);
        let at = question as usize;
        let book = |lent: &mut [i64]| joined::book(morning, noon, question, lent);
        ask_plain(&format!("book {question}"), book, |lent| pair.book(at, lent), &mut random, tally)?;
        let uses = |lent: &mut [i64]| joined::uses(morning, noon, question, lent);
        ask_plain(&format!("uses {question}"), uses, |lent| pair.uses(at, lent), &mut random, tally)?;
    }

    let requirement = account.as_ref().map_or(Amount(0), |account| total(&figures_of(account)));
    for _ in 0..CALLS {
        let cover = generate::cover(&mut random, requirement);
        let Cover { last_call, threshold, collateral } = cover;
        let answer = joined::call(morning, noon, cover);
        let wanted = CallOutcome { outcome: outcome(&answer), call: answer.map_or(0, |call| call.0 as u64) };
        same(&format!("call with {cover:?}"), pair.call(last_call.0, threshold.0, collateral.0), wanted)?;
        count(&mut tally.answers, wanted.outcome);
        tally.calls += u64::from(wanted.call > 0);
    }
    Ok(())
}

/// The sixteen contracts, the intercontract table, and questions that no account lists, some of them like those in part.
fn questions(random: &mut Random) -> impl Iterator<Item = u64> {
    (0..=17).chain([255, 256 + random.below(17), (1 << 32) + random.below(17), u64::MAX])
}

/// Puts a question with exactly as many numbers lent as its answer has, with more and with fewer, to the proved library and to
/// the account that the independent program holds.
fn ask_held(
    question: &str,
    account: &Result<Account, PairRefusal>,
    numbers: impl Fn(&Account) -> Result<Vec<i64>, Refusal>,
    proved: impl Fn(&mut [i64]) -> PairOutcome,
    random: &mut Random,
    tally: &mut Tally,
) -> Result<(), String> {
    let account = account.as_ref().map_err(|refusal| *refusal);
    let answer = account.and_then(|account| {
        let numbers = numbers(account).map_err(|refusal| refusal.of(JOINED))?;
        Ok((account, numbers))
    });
    let second = |lent: &mut [i64]| match &answer {
        Ok((account, numbers)) => outcome(&write(account, numbers, lent).map_err(|refusal| refusal.of(JOINED))),
        refused => outcome(refused),
    };
    let needed = answer.as_ref().map_or(0, |(_, numbers)| numbers.len());
    let more = needed + 1 + random.below(3) as usize;
    for lent in [needed, more, needed.saturating_sub(1)] {
        ask(question, lent, &proved, second, random, tally)?;
    }
    Ok(())
}

/// Puts a question with a random number of numbers lent to both over plain bytes.
fn ask_plain(
    question: &str,
    second: impl Fn(&mut [i64]) -> Result<usize, PairRefusal>,
    proved: impl Fn(&mut [i64]) -> PairOutcome,
    random: &mut Random,
    tally: &mut Tally,
) -> Result<(), String> {
    let needed = second(&mut [0; MOST_NUMBERS]).unwrap_or(0);
    let lent = generate::lent(random, needed);
    ask(question, lent, proved, |lent| outcome(&second(lent)), random, tally)
}

fn ask(
    question: &str,
    lent: usize,
    proved: impl Fn(&mut [i64]) -> PairOutcome,
    second: impl Fn(&mut [i64]) -> PairOutcome,
    random: &mut Random,
    tally: &mut Tally,
) -> Result<(), String> {
    let [outcome] = ask_each(question, [lent], |[lent]| [proved(lent)], |[lent]| [second(lent)], random)?;
    count(&mut tally.answers, outcome);
    tally.numbers += lent as u64;
    Ok(())
}
