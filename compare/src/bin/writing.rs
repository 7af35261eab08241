//! writing SEED COUNT [FIRST]: has the account files of COUNT generated lists of entries, from index FIRST on, written by the proved
//! library and by the independent program, with exactly enough bytes lent, with more and with too few. The outcome, every lent byte
//! afterwards and those behind them must agree; what is written reads back as what was entered, and writes itself again; and each
//! thing that is looked for must have occurred.

use compare::asking::{same, Run};
use felgotany::WriteOutcome;
use independent::entered::{read, record, write, Entered};
use independent::format::RECORD_BYTES;
use independent::generate::{self, Random};
use independent::refusal::*;
use std::collections::BTreeMap;
use std::process::ExitCode;

/// How many bytes stand behind those lent, not to be touched, and how many more than are needed are lent at most.
const NOT_LENT: usize = 64;
const SPARE: u64 = 200;
/// From so many lists on, all that is looked for is expected to occur.
const ALL_OCCUR: u64 = 2_000;

fn main() -> ExitCode {
    let Some(run) = Run::of_arguments() else {
        eprintln!("usage: writing SEED COUNT [FIRST]");
        return ExitCode::from(2);
    };
    let mut seen = Seen::default();
    let differences = run.differences(|index| compare_entries(run.seed, index, &mut seen));
    println!("seed {}, {} lists of entries from index {}", run.seed, run.count, run.first);
    seen.0.iter().for_each(|(what, count)| println!("{what}: {count}"));
    println!("{differences} differences");
    let never: Vec<&String> = seen.0.iter().filter(|(_, count)| **count == 0).map(|(what, _)| what).collect();
    if run.count >= ALL_OCCUR && !never.is_empty() {
        println!("never occurred: {never:?}");
        return ExitCode::FAILURE;
    }
    if differences == 0 {
        ExitCode::SUCCESS
    } else {
        ExitCode::FAILURE
    }
}

/// How often each thing that is looked for was seen.
#[derive(Default)]
struct Seen(BTreeMap<String, u64>);

impl Seen {
    fn sight(&mut self, what: impl ToString, seen: bool) {
        *self.0.entry(what.to_string()).or_default() += u64::from(seen);
    }

    fn told(&mut self, outcome: WriteOutcome, entered: &[u8], file: &[u8]) {
        let numbers =
            [TOO_LONG, UNUSED_BYTE, OUT_OF_RANGE, UNLISTED, ORDER_OR_CLASH, OVER_LIMIT, NO_RATE, CONVERSION_TOO_LARGE, TOO_FEW_BYTES];
        for number in [0].into_iter().chain(numbers.map(usize::from)) {
            self.sight(format!("outcome {number}"), outcome.refusal == number);
        }
        self.sight("an entry at fault that is not the first", outcome.refusal != 0 && outcome.entry > 0);
        self.sight("entries out of order written", outcome.refusal == 0 && entered != file);
        self.sight("entries in order written", outcome.refusal == 0 && !file.is_empty() && entered == file);
    }
}

fn compare_entries(seed: u64, index: u64, seen: &mut Seen) -> Result<(), String> {
    let entries = generate::entries(seed, index);
    let entered: Vec<u8> = entries.iter().flat_map(record).collect();
    let mut random = Random::new(!seed, index);
    for lent in [entered.len(), entered.len() + random.below(SPARE) as usize, random.place(entered.len().max(1))] {
        let before: Vec<u8> = (0..lent + NOT_LENT).map(|_| random.word() as u8).collect();
        let (mut by_proved, mut by_second) = (before.clone(), before);
        let given = felgotany::write(&entered, &mut by_proved[..lent]);
        let wanted = second(&entries, &mut by_second[..lent]);
        same(&format!("{} entries, {lent} bytes lent", entries.len()), given, wanted)?;
        same(&format!("{} entries, {lent} bytes lent: memory afterwards", entries.len()), &by_proved, &by_second)?;
        let file = &by_proved[..given.written];
        seen.told(given, &entered, file);
        if given.refusal == 0 {
            round_trip(&entries, file)?;
        }
    }
    Ok(())
}

/// What is written reads back as what was entered, in the file's order, and writes the same bytes again.
fn round_trip(entries: &[Entered], file: &[u8]) -> Result<(), String> {
    let read = read(file).map_err(|refusal| format!("what is written is refused: {refusal:?}"))?;
    let sorted = |list: &[Entered]| {
        let mut records: Vec<[u8; RECORD_BYTES]> = list.iter().map(record).collect();
        records.sort_unstable();
        records
    };
    same("what is read again", sorted(&read), sorted(entries))?;
    let mut again = vec![0; file.len()];
    felgotany::write(file, &mut again);
    same("what is written again", &again[..], file)
}

/// What the independent program answers.
fn second(entries: &[Entered], out: &mut [u8]) -> WriteOutcome {
    match write(entries, out) {
        Ok(written) => WriteOutcome { refusal: 0, entry: 0, written },
        Err(refusal) => WriteOutcome { refusal: refusal.number.into(), entry: refusal.record, written: 0 },
    }
}
