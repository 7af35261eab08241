//! runs SEED COUNT [FIRST]: puts COUNT generated runs of accounts, from index FIRST on, to the proved library and to the
//! independent program, with exactly enough numbers lent, with more and with too few. The outcome of the run, every lent number
//! afterwards and those behind them must agree; and each account's places must be what the plain question leaves of it. From 2,000
//! runs on, ten thousand generated accounts are one run more.

use compare::asking::{same, Run};
use felgotany::Outcome;
use independent::generate::{self, Random};
use independent::refusal::{Refusal, LENGTHS_DIFFER, TOO_FEW_LENT};
use independent::run::{accounts, answer, FIGURES_PLACE};
use std::collections::BTreeMap;
use std::process::ExitCode;

/// The numbers of an account's place for refusal and record.
const OUTCOME_PLACE: usize = 2;
/// How many numbers stand behind those lent, not to be touched.
const NOT_LENT: usize = 8;
/// How many times as many numbers as are needed are lent at most.
const SPARE: u64 = 140;
/// From so many runs on, each refusal is expected to occur.
const ALL_OCCUR: u64 = 2_000;
/// The accounts of the long run.
const LONG: u64 = 10_000;

fn main() -> ExitCode {
    let Some(run) = Run::of_arguments() else {
        eprintln!("usage: runs SEED COUNT [FIRST]");
        return ExitCode::from(2);
    };
    let mut tally = Tally::default();
    let mut differences = run.differences(|index| compare_run(run.seed, index, &mut tally));
    if run.count >= ALL_OCCUR {
        if let Err(fault) = compare_long(run.seed, &mut tally) {
            println!("seed {}, the long run: {fault}", run.seed);
            differences += 1;
        }
    }
    tally.print(run, differences);
    if differences == 0 && (run.count < ALL_OCCUR || tally.nothing_missing()) {
        ExitCode::SUCCESS
    } else {
        ExitCode::FAILURE
    }
}

#[derive(Default)]
struct Tally {
    runs: BTreeMap<usize, u64>,
    accounts: BTreeMap<usize, u64>,
    numbers: u64,
}

impl Tally {
    fn print(&self, Run { seed, count, first }: Run, differences: usize) {
        println!("seed {seed}, {count} runs from index {first}");
        println!("runs: {}", line(&self.runs));
        println!("accounts: {}", line(&self.accounts));
        println!("{} lent numbers compared, {differences} differences", self.numbers);
    }

    fn nothing_missing(&self) -> bool {
        let of_runs = [0, usize::from(LENGTHS_DIFFER), usize::from(TOO_FEW_LENT)];
        let mut missing: Vec<usize> = of_runs.into_iter().filter(|number| !self.runs.contains_key(number)).collect();
        missing.extend((0..=9).chain([14, 15]).filter(|number| !self.accounts.contains_key(number)));
        if !missing.is_empty() {
            println!("never occurred: {missing:?}");
        }
        missing.is_empty()
    }
}

fn line(counts: &BTreeMap<usize, u64>) -> String {
    let told = |(&refusal, count): (&usize, &u64)| match refusal {
        0 => format!("{count} accepted"),
        _ => format!("refusal {refusal}: {count}"),
    };
    counts.iter().map(told).collect::<Vec<_>>().join(", ")
}

/// The memory that is lent for a run, with what stands behind it.
#[derive(Clone, Debug, PartialEq, Eq)]
struct Memory {
    figures: Vec<i64>,
    outcomes: Vec<usize>,
}

impl Memory {
    fn lent(figures: usize, outcomes: usize, random: &mut Random) -> Memory {
        Memory {
            figures: (0..figures + NOT_LENT).map(|_| random.word() as i64).collect(),
            outcomes: (0..outcomes + NOT_LENT).map(|_| random.word() as usize).collect(),
        }
    }

    fn lend(&mut self) -> (&mut [i64], &mut [usize]) {
        let (figures, outcomes) = (self.figures.len() - NOT_LENT, self.outcomes.len() - NOT_LENT);
        (&mut self.figures[..figures], &mut self.outcomes[..outcomes])
    }
}

fn outcome<T>(answer: &Result<T, Refusal>) -> Outcome {
    match answer {
        Ok(_) => Outcome { refusal: 0, record: 0 },
        Err(refusal) => Outcome { refusal: refusal.number.into(), record: refusal.record },
    }
}

fn compare_run(seed: u64, index: u64, tally: &mut Tally) -> Result<(), String> {
    let run = generate::run(seed, index);
    let lengths: Vec<usize> = run.lengths.iter().map(|&length| length as usize).collect();
    let mut random = Random::new(!seed, index);
    let (figures, outcomes) = (FIGURES_PLACE * lengths.len(), OUTCOME_PLACE * lengths.len());
    let spare = random.below(SPARE) as usize;
    for (figures, outcomes) in [
        (figures, outcomes),
        (figures + spare, outcomes + spare),
        (figures.saturating_sub(1 + spare), outcomes),
        (figures + spare, outcomes.saturating_sub(1)),
    ] {
        ask(&run.bytes, &lengths, Memory::lent(figures, outcomes, &mut random), tally)?;
    }
    Ok(())
}

/// Ten thousand generated accounts in one call.
fn compare_long(seed: u64, tally: &mut Tally) -> Result<(), String> {
    let files: Vec<Vec<u8>> = (0..LONG).map(|index| generate::account(seed, index)).collect();
    let lengths: Vec<usize> = files.iter().map(Vec::len).collect();
    let (figures, outcomes) = (FIGURES_PLACE * lengths.len(), OUTCOME_PLACE * lengths.len());
    let memory = Memory::lent(figures, outcomes, &mut Random::new(!seed, LONG));
    let done = ask(&files.concat(), &lengths, memory, tally);
    done.map_err(|fault| fault.chars().take(400).collect())
}

fn ask(bytes: &[u8], lengths: &[usize], before: Memory, tally: &mut Tally) -> Result<(), String> {
    let (mut by_proved, mut by_second, mut by_plain) = (before.clone(), before.clone(), before);
    let (figures, outcomes) = by_proved.lend();
    let (lent, lent_outcomes) = (figures.len(), outcomes.len());
    let what = format!("{} accounts, {lent} and {lent_outcomes} numbers lent", lengths.len());
    let given = felgotany::run(bytes, lengths, figures, outcomes);

    let wanted = second(bytes, lengths, &mut by_second, tally);
    same(&what, given, wanted)?;
    same(&format!("{what}: memory afterwards"), &by_proved, &by_second)?;
    if given.refusal == 0 {
        plain(bytes, lengths, &mut by_plain);
        same(&format!("{what}: memory after plain questions"), &by_proved, &by_plain)?;
    }
    *tally.runs.entry(given.refusal).or_default() += 1;
    tally.numbers += (lent + lent_outcomes) as u64;
    Ok(())
}

/// What the independent program answers, and leaves in the places.
fn second(bytes: &[u8], lengths: &[usize], memory: &mut Memory, tally: &mut Tally) -> Outcome {
    let (figures, outcomes) = memory.lend();
    let lengths: Vec<u64> = lengths.iter().map(|&length| length as u64).collect();
    let files = match accounts(bytes, &lengths) {
        Ok(files) => files,
        refused => return outcome(&refused),
    };
    if figures.len() < FIGURES_PLACE * files.len() || outcomes.len() < OUTCOME_PLACE * files.len() {
        return Outcome { refusal: TOO_FEW_LENT.into(), record: 0 };
    }
    for (place, file) in files.iter().enumerate() {
        let answer = answer(file);
        let told = outcome(&answer);
        *tally.accounts.entry(told.refusal).or_default() += 1;
        outcomes[OUTCOME_PLACE * place..][..OUTCOME_PLACE].copy_from_slice(&[told.refusal, told.record]);
        if let Ok(numbers) = answer {
            figures[FIGURES_PLACE * place..][..numbers.len()].copy_from_slice(&numbers);
        }
    }
    Outcome { refusal: 0, record: 0 }
}

/// What a call of its own for each account leaves in its places.
fn plain(bytes: &[u8], lengths: &[usize], memory: &mut Memory) {
    let (figures, outcomes) = memory.lend();
    let mut left = bytes;
    for (place, &length) in lengths.iter().enumerate() {
        let (file, after) = left.split_at(length);
        let told = felgotany::figures(file, &mut figures[FIGURES_PLACE * place..][..FIGURES_PLACE]);
        outcomes[OUTCOME_PLACE * place..][..OUTCOME_PLACE].copy_from_slice(&[told.refusal, told.record]);
        left = after;
    }
}
