//! verdicts PROGRAM SEED COUNT: runs the check program on COUNT generated accounts; it must print what the independent
//! check says of each, and accepted and each refusal of the check must occur.

use independent::{check, generate};
use std::collections::BTreeMap;
use std::io::{ErrorKind, Result, Write};
use std::process::{Command, ExitCode, Stdio};

/// Refusals 1 to 9, 14 and 15 are the check's.
const REFUSALS: usize = 11;

fn main() -> ExitCode {
    let words: Vec<String> = std::env::args().skip(1).collect();
    let [program, seed, count] = &words[..] else { return usage() };
    let (Ok(seed), Ok(count)) = (seed.parse(), count.parse()) else { return usage() };
    let mut seen: BTreeMap<String, u64> = BTreeMap::new();
    let mut different = 0;
    for index in 0..count {
        let file = generate::account(seed, index);
        let (name, wanted) = match check(&file) {
            Ok(_) => ("accepted".to_string(), "A\n".to_string()),
            Err(refusal) => (format!("refusal {}", refusal.number), format!("{refusal}\n")),
        };
        match printed(program, &file) {
            Ok(line) if line == wanted.as_bytes() => *seen.entry(name).or_default() += 1,
            Ok(_) => {
                println!("seed {seed} index {index}: the program does not print {wanted:?}");
                different += 1;
            }
            Err(fault) => {
                println!("{program}: {fault}");
                return ExitCode::FAILURE;
            }
        }
    }
    println!("verdicts printed alike: {seen:?}, {different} not");
    if different == 0 && seen.len() == 1 + REFUSALS {
        ExitCode::SUCCESS
    } else {
        ExitCode::FAILURE
    }
}

fn usage() -> ExitCode {
    eprintln!("usage: verdicts PROGRAM SEED COUNT");
    ExitCode::from(2)
}

/// What the program writes for a file. It need not read a file that is too long to its end.
fn printed(program: &str, file: &[u8]) -> Result<Vec<u8>> {
    let mut child = Command::new(program).stdin(Stdio::piped()).stdout(Stdio::piped()).spawn()?;
    if let Some(mut input) = child.stdin.take() {
        match input.write_all(file) {
            Err(fault) if fault.kind() != ErrorKind::BrokenPipe => return Err(fault),
            _ => {}
        }
    }
    Ok(child.wait_with_output()?.stdout)
}
