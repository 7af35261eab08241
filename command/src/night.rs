//! The whole book overnight: the accounts of a folder or a list, put to the library in runs, one line each.

use crate::args::{Form, Night};
use crate::failure::{Failure, Status};
use crate::input::Input;
use crate::names::{as_list, names, on_one_line, Part};
use crate::numbers::amount;
use crate::progress::Progress;
use crate::summary::{Answer, Summary};
use crate::{output, sheet, table};
use account_text::wording::counted;
use felgotany::{Outcome, MOST_FIGURES};
use independent::format::{records, CONTRACT};
use std::fs;
use std::path::{Path, PathBuf};

/// The figures of a contract, and the numbers of an account's refusal and record.
const FIGURES: usize = 8;
const OUTCOME: usize = 2;

/// A run is put to the library once it has so many accounts, or so many bytes, so that the memory is bounded.
const RUN_ACCOUNTS: usize = 256;
const RUN_BYTES: usize = 4 << 20;

/// Answers each name in one line on standard output, and then tells the counts.
pub fn answer(asked: &Night) -> Result<Status, Failure> {
    let all = names(&asked.book, asked.part, asked.empty.empty)?;
    let part = asked.part.unwrap_or(Part::WHOLE);
    let stretch = part.of(all.len());
    if asked.names {
        return output::to_standard(as_list(&all[stretch])?).map(|()| Status::Answered);
    }
    if asked.form.csv && part.is_first() {
        output::to_standard(table::csv_rows([sheet::NIGHT.map(str::to_string)]))?;
    }
    let summary = answer_names(asked, &all[stretch.clone()])?;
    let of = match (part.is_whole(), stretch.is_empty()) {
        (true, _) => String::new(),
        (_, true) => format!("{part}, none of {} names: ", all.len()),
        (_, false) => format!("{part}, names {} to {} of {}: ", stretch.start + 1, stretch.end, all.len()),
    };
    output::tell(&summary.told(&of));
    Ok(summary.status())
}

fn answer_names(asked: &Night, names: &[PathBuf]) -> Result<Summary, Failure> {
    let mut summary = Summary::default();
    let mut progress = Progress::of(names.len(), asked.progress);
    let mut left = names.iter();
    loop {
        let run = load_run(&mut left, asked.empty.empty);
        if run.is_empty() {
            progress.end();
            return Ok(summary);
        }
        let lines: Vec<Line> =
            run.iter().zip(answers(&run)).map(|(account, answer)| Line::of(account, answer, asked.words)).collect();
        progress.aside(|| print(&lines, asked.form))?;
        lines.iter().for_each(|line| summary.count(&line.answer));
        progress.add(lines.len());
    }
}

/// A name, and its account or why it is not read.
struct Loaded<'a> {
    name: &'a Path,
    input: Result<Input, String>,
}

/// The next accounts, as many as make a run.
fn load_run<'a>(names: &mut impl Iterator<Item = &'a PathBuf>, empty: bool) -> Vec<Loaded<'a>> {
    let (mut run, mut bytes) = (vec![], 0);
    while run.len() < RUN_ACCOUNTS && bytes < RUN_BYTES {
        let Some(name) = names.next() else { break };
        let input = load(name, empty);
        bytes += input.as_ref().map_or(0, |input| input.file.len());
        run.push(Loaded { name, input });
    }
    run
}

/// The account in a file. What is no file is not opened, since a night does not wait for a pipe.
fn load(name: &Path, empty: bool) -> Result<Input, String> {
    if name.as_os_str().is_empty() {
        return Err("an empty line in the list".to_string());
    }
    match fs::metadata(name) {
        Ok(there) if there.is_dir() => Err("a folder, and no account".to_string()),
        Ok(there) if !there.is_file() => Err("a pipe or a device, and no file".to_string()),
        _ => Input::open(name, empty).map_err(|failure| first_fault(&failure.told, &name.display().to_string())),
    }
}

/// Why an account is not read: the first fault, and how many there are more. `felgotany check` tells them all.
fn first_fault(told: &str, name: &str) -> String {
    let mut faults = told.lines().map(|line| line.strip_prefix(name).and_then(|line| line.strip_prefix(": ")).unwrap_or(line));
    let first = faults.next().unwrap_or_default();
    match faults.count() {
        0 => first.to_string(),
        more => format!("{first}; and {} more", counted(more, "fault")),
    }
}

/// The answer to each name: those that were read are one run.
fn answers(run: &[Loaded]) -> Vec<Answer> {
    let files: Vec<&[u8]> = run.iter().filter_map(|account| Some(&account.input.as_ref().ok()?.file[..])).collect();
    let lengths: Vec<usize> = files.iter().map(|file| file.len()).collect();
    let mut figures = vec![0; MOST_FIGURES * files.len()];
    let mut outcomes = vec![0; OUTCOME * files.len()];
    let refused = felgotany::run(&files.concat(), &lengths, &mut figures, &mut outcomes);
    assert_eq!(refused.refusal, 0, "the lengths are the accounts' and each has its places");
    let (outcomes, _) = outcomes.as_chunks::<OUTCOME>();
    let mut places = figures.chunks_exact(MOST_FIGURES).zip(outcomes);
    let answer = |account: &Loaded| {
        let Ok(input) = &account.input else { return Answer::NotRead };
        let (figures, &[refusal, record]) = places.next().expect("what is read has its places");
        match refusal {
            0 => Answer::Total(total(&input.file, figures)),
            _ => Answer::Refused(Outcome { refusal, record }),
        }
    };
    run.iter().map(answer).collect()
}

/// The total stands behind the figures of the account's contracts, which are its first records.
fn total(file: &[u8], figures: &[i64]) -> i64 {
    let contracts = records(file).iter().take_while(|record| record.kind() == CONTRACT).count();
    figures[FIGURES * contracts]
}

/// What is printed of an account. Words are of a refusal, where they are asked for, and of what is not read.
struct Line {
    name: String,
    answer: Answer,
    words: String,
}

impl Line {
    fn of(account: &Loaded, answer: Answer, words: bool) -> Line {
        let words = match (&account.input, answer) {
            (Ok(input), Answer::Refused(refused)) if words => input.refusal_in_words(refused).replace("\n  ", "; "),
            (Ok(_), _) => String::new(),
            (Err(why), _) => why.clone(),
        };
        Line { name: on_one_line(account.name), answer, words }
    }

    fn for_people(&self) -> String {
        let Line { name, answer, words } = self;
        match answer {
            Answer::Total(total) => format!("{name}: total {}\n", amount(*total)),
            Answer::Refused(Outcome { refusal, record }) if words.is_empty() => {
                format!("{name}: refusal {refusal}, record {record}\n")
            }
            Answer::Refused(_) => format!("{name}: {words}\n"),
            Answer::NotRead => format!("{name}: not read: {words}\n"),
        }
    }

    fn for_programs(&self) -> String {
        let name = &self.name;
        match self.answer {
            Answer::Total(total) => format!("T {total} {name}\n"),
            Answer::Refused(Outcome { refusal, record }) => format!("R {refusal} {record} {name}\n"),
            Answer::NotRead => format!("U {name}\n"),
        }
    }

    fn row(&self) -> [String; sheet::NIGHT.len()] {
        let (verdict, [total, refusal, record]) = match self.answer {
            Answer::Total(total) => ("accepted", [amount(total), String::new(), String::new()]),
            Answer::Refused(Outcome { refusal, record }) => ("refused", [String::new(), refusal.to_string(), record.to_string()]),
            Answer::NotRead => ("not read", Default::default()),
        };
        [self.name.clone(), verdict.to_string(), total, refusal, record, self.words.clone()]
    }
}

/// Prints the lines of a run. Lines for other programs have no words: why an account is not read is then told.
fn print(lines: &[Line], form: Form) -> Result<(), Failure> {
    if form.lines {
        let not_read = lines.iter().filter(|line| matches!(line.answer, Answer::NotRead));
        let told = not_read.map(|line| format!("felgotany: {}: {}\n", line.name, line.words));
        output::tell(&told.collect::<String>());
    }
    output::to_standard(match form {
        Form { lines: true, .. } => lines.iter().map(Line::for_programs).collect(),
        Form { csv: true, .. } => table::csv_rows(lines.iter().map(Line::row)),
        _ => lines.iter().map(Line::for_people).collect::<String>(),
    })
}
