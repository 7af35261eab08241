//! felgotany: the margin of account files at the command line. The figures, the books and the verdicts are the proved
//! library's; this program reads, asks and prints.

mod account;
mod args;
mod ask;
mod committee;
mod failure;
mod input;
mod judge;
mod lines;
mod list;
mod names;
mod night;
mod noon;
mod numbers;
mod output;
mod page;
mod progress;
mod report;
mod sheet;
mod summary;
mod table;
mod tickets;

use args::Call;
use clap::Parser;
use failure::{Failure, Status};
use std::process::ExitCode;

fn main() -> ExitCode {
    let status = match Call::try_parse() {
        Ok(call) => answer(call),
        Err(told) if told.use_stderr() => {
            output::tell(&told.to_string());
            Status::CalledWrongly
        }
        Err(help) => ended(output::to_standard(&help.to_string())),
    };
    ExitCode::from(status as u8)
}

fn answer(call: Call) -> Status {
    match ask::ask(call.asked) {
        Ok(answer) => {
            let printed = ended(output::to_standard(&answer.text));
            let told = answer.failures.into_iter().map(tell_failure);
            told.fold(printed, Status::max)
        }
        Err(failure) => tell_failure(failure),
    }
}

fn ended(result: Result<(), Failure>) -> Status {
    result.map_or_else(tell_failure, |()| Status::Answered)
}

/// Tells a failure; lines that begin with spaces go on with the one before.
fn tell_failure(failure: Failure) -> Status {
    let told = failure.told.lines().map(|line| match line.starts_with(' ') {
        true => format!("{line}\n"),
        false => format!("felgotany: {line}\n"),
    });
    output::tell(&told.collect::<String>());
    failure.status
}
