//! compare SEED COUNT: checks the text form and the explanations of COUNT generated accounts and of the
//! examples against the files themselves and the independent program, and the documents against both.

mod accounts;
mod documents;

use accounts::Tally;
use std::process::ExitCode;

/// From so many accounts on, each refusal and each wording is expected to occur.
const ALL_OCCUR: u64 = 2_000;

fn main() -> ExitCode {
    let words: Vec<u64> = std::env::args().skip(1).filter_map(|word| word.parse().ok()).collect();
    let [seed, count] = words[..] else {
        eprintln!("usage: compare SEED COUNT");
        return ExitCode::from(2);
    };
    match compare(seed, count) {
        Ok(tally) => {
            println!("{tally}");
            ExitCode::SUCCESS
        }
        Err(fault) => {
            println!("{fault}");
            ExitCode::FAILURE
        }
    }
}

fn compare(seed: u64, count: u64) -> Result<Tally, String> {
    let mut tally = Tally::default();
    let examples = documents::examples()?;
    for example in &examples {
        accounts::hold(&example.file, &mut tally)
            .map_err(|fault| format!("{}: {fault}", example.name))?;
        example.hold()?;
    }
    for index in 0..count {
        accounts::hold_generated(seed, index, &mut tally)
            .map_err(|fault| format!("seed {seed} index {index}: {fault}"))?;
    }
    if count >= ALL_OCCUR {
        tally.nothing_missing()?;
    }
    documents::hold_refusals(&examples)?;
    documents::hold_file()?;
    Ok(tally)
}
