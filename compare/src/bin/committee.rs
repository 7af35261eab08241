//! committee SEED COUNT [FIRST]: asks for the risk committee's figures of COUNT generated runs of accounts, from index FIRST on, of
//! the proved library and of the independent program, with exactly enough numbers lent, with more and with too few. The outcome,
//! every lent number afterwards and those behind them must agree; and each thing that is looked for must have occurred.

use compare::asking::{ask_each, Run};
use felgotany::Outcome;
use independent::check::check;
use independent::committee::{committee, compared_risk, figures, Committee, MOST_ACCOUNTS, NUMBERS};
use independent::generate::{self, Random};
use independent::margin::{figures_of, total, Figures};
use independent::refusal::{LENGTHS_DIFFER, TOO_FEW_LENT, TOO_MANY_ACCOUNTS};
use independent::run::accounts;
use independent::units::Amount;
use std::collections::BTreeMap;
use std::process::ExitCode;

/// How many numbers more than are needed are lent at most.
const SPARE: u64 = 40;
/// From so many runs on, all that is looked for is expected to occur.
const ALL_OCCUR: u64 = 2_000;

fn main() -> ExitCode {
    let Some(run) = Run::of_arguments() else {
        eprintln!("usage: committee SEED COUNT [FIRST]");
        return ExitCode::from(2);
    };
    let mut seen = Seen::default();
    let differences = run.differences(|index| compare_run(run.seed, index, &mut seen));
    println!("seed {}, {} runs from index {}", run.seed, run.count, run.first);
    seen.0.iter().for_each(|(what, count)| println!("{what}: {count}"));
    println!("{differences} differences");
    let never: Vec<&String> = seen.0.iter().filter(|(_, count)| **count == 0).map(|(what, _)| what).collect();
    if run.count >= ALL_OCCUR && !never.is_empty() {
        println!("never occurred: {never:?}");
        return ExitCode::FAILURE;
    }
    if differences == 0 {
        ExitCode::SUCCESS
    } else {
        ExitCode::FAILURE
    }
}

/// How often each thing that is looked for was seen.
#[derive(Default)]
struct Seen(BTreeMap<String, u64>);

impl Seen {
    fn sight(&mut self, what: impl ToString, seen: bool) {
        *self.0.entry(what.to_string()).or_default() += u64::from(seen);
    }

    /// The refusals of the run, and which of the others hold too.
    fn told(&mut self, refusal: usize, lengths: &[usize], bytes: &[u8], lent: usize) {
        let [many, differ, few] = [TOO_MANY_ACCOUNTS, LENGTHS_DIFFER, TOO_FEW_LENT].map(usize::from);
        for number in [0, many, differ, few] {
            self.sight(format!("outcome {number}"), refusal == number);
        }
        let sum = lengths.iter().map(|&length| length as u128).sum::<u128>();
        self.sight("19 while 17 holds", refusal == many && sum != bytes.len() as u128);
        self.sight("19 while 10 holds", refusal == many && lent < NUMBERS);
        self.sight("17 while 10 holds", refusal == differ && lent < NUMBERS);
        self.sight("17 of a sum that wraps around", refusal == differ && sum > u128::from(u64::MAX));
        self.sight("101 accounts", refusal == many && lengths.len() == MOST_ACCOUNTS + 1);
        self.sight("100 accounts", refusal == 0 && lengths.len() == MOST_ACCOUNTS);
        self.sight("23 numbers lent", refusal == few && lent + 1 == NUMBERS);
    }

    /// What the figures show.
    fn figures(&mut self, files: &[&[u8]], of: &Committee) {
        let each: Vec<Option<Vec<Figures>>> =
            files.iter().map(|file| check(file).ok().map(|account| figures_of(&account))).collect();
        let margins: Vec<Option<Amount>> = each.iter().map(|figures| figures.as_ref().map(|figures| total(figures))).collect();
        let largest = margins.iter().filter(|margin| **margin == Some(of.largest)).count();
        let some = of.accepted > 0;
        self.sight("no account", files.is_empty());
        self.sight("none accepted", !some && !files.is_empty());
        self.sight("none refused", some && of.refused == 0);
        self.sight("a tie of the largest margin", of.largest > Amount(0) && largest > 1);
        self.sight("a largest margin of 0", some && of.largest == Amount(0));
        self.sight("the largest margin after a refused account", some && margins[..of.place as usize].contains(&None));
        self.sight("the largest margin after a smaller one", some && margins[..of.place as usize].iter().any(Option::is_some));
        self.sight("credit", of.accounts_with_credit > 0);
        self.sight("a remainder", of.remainder > 0);
        self.sight("no remainder of several margins", of.accepted > 1 && of.largest > Amount(0) && of.remainder == 0);
        let contracts = || each.iter().flatten().flatten();
        let gap = |contract: &Figures| contract.short_option_minimum - compared_risk(contract);
        self.sight("a minimum above the risk", contracts().any(|contract| gap(contract) > Amount(0)));
        self.sight("a minimum one above the risk", contracts().any(|contract| gap(contract) == Amount(1)));
        let equal = |contract: &&Figures| contract.short_option_minimum > Amount(0) && gap(contract) == Amount(0);
        self.sight("a minimum equal to the risk", contracts().any(|contract| equal(&contract)));
        self.sight("a minimum one below the risk", contracts().any(|contract| gap(contract) == Amount(-1)));
        for number in (1..=9).chain([14, 15]) {
            self.sight(format!("an account with refusal {number}"), of.refusals[number - 1] > 0);
        }
    }
}

fn compare_run(seed: u64, index: u64, seen: &mut Seen) -> Result<(), String> {
    let run = generate::run(seed, index);
    let lengths: Vec<usize> = run.lengths.iter().map(|&length| length as usize).collect();
    let mut random = Random::new(!seed, index);
    for lent in [NUMBERS, NUMBERS + random.below(SPARE) as usize, NUMBERS - 1, random.place(NUMBERS)] {
        let what = format!("{} accounts", lengths.len());
        let [given] = ask_each(
            &what,
            [lent],
            |[out]| [felgotany::committee(&run.bytes, &lengths, out)],
            |[out]| [second(&run.bytes, &run.lengths, out)],
            &mut random,
        )?;
        seen.told(given.refusal, &lengths, &run.bytes, lent);
    }
    if let Ok(files) = accounts(&run.bytes, &run.lengths) {
        if files.len() <= MOST_ACCOUNTS {
            seen.figures(&files, &committee(&files));
        }
    }
    Ok(())
}

/// What the independent program answers.
fn second(bytes: &[u8], lengths: &[u64], out: &mut [i64]) -> Outcome {
    match figures(bytes, lengths, out) {
        Ok(_) => Outcome { refusal: 0, record: 0 },
        Err(refusal) => Outcome { refusal: refusal.number.into(), record: refusal.record },
    }
}
