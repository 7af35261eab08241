//! report run FELGOTANY SEED COUNT: asks the command for the report of COUNT generated accounts and of as many pairs, as text and as
//! a page. The page must say what the lines of `book` or `noon` say, its working must be the independent program's, its columns must add
//! up, and the text must have the rows of the page.
//! report files FELGOTANY ACCOUNT [NOON]: the same of files.
//! report seen LINES SEEN: what a browser showed of a page must say what the lines say.

mod lines;
mod tables;
mod working;

use independent::format::RECORD_BYTES;
use independent::{check, generate, joined, Account};
use std::collections::BTreeMap;
use std::path::Path;
use std::process::{Command, ExitCode};
use std::{env, fs};
use tables::Tables;

fn main() -> ExitCode {
    let words: Vec<String> = env::args().skip(1).collect();
    let words: Vec<&str> = words.iter().map(String::as_str).collect();
    let done = match words[..] {
        ["run", felgotany, seed, count] => match (seed.parse(), count.parse()) {
            (Ok(seed), Ok(count)) => run(felgotany, seed, count),
            _ => return usage(),
        },
        ["files", felgotany, account] => of_files(felgotany, account, None),
        ["files", felgotany, account, noon] => of_files(felgotany, account, Some(noon)),
        ["seen", lines, seen] => browser(lines, seen),
        _ => return usage(),
    };
    match done {
        Ok(said) => {
            println!("{said}");
            ExitCode::SUCCESS
        }
        Err(fault) => {
            println!("{fault}");
            ExitCode::FAILURE
        }
    }
}

fn usage() -> ExitCode {
    eprintln!("usage: report run FELGOTANY SEED COUNT | report files FELGOTANY ACCOUNT [NOON] | report seen LINES SEEN");
    ExitCode::from(2)
}

/// The exit status for what cannot be read: a generated file of a few bytes may look like a text.
const NOT_READ: i32 = 3;

/// How often there was each answer.
type Tally = BTreeMap<String, u64>;

/// What must occur among the generated accounts, and from how many on.
const ALL_OCCUR: u64 = 300;
const OCCUR: [&str; 4] = ["refused", "empty", "No.", "Nothing to pair."];

fn run(felgotany: &str, seed: u64, count: u64) -> Result<String, String> {
    let folder = env::temp_dir().join(format!("compare-report-{}", std::process::id()));
    fs::create_dir_all(&folder).map_err(|fault| fault.to_string())?;
    let done = generated(felgotany, seed, count, &folder);
    _ = fs::remove_dir_all(&folder);
    let tally = done?;
    let said: Vec<String> = tally.iter().map(|(what, often)| format!("{what} {often}")).collect();
    match OCCUR.iter().find(|what| !tally.contains_key(**what)) {
        Some(what) if count >= ALL_OCCUR => Err(format!("never occurred: {what}; {}", said.join(", "))),
        _ => Ok(format!("seed {seed}, {count} accounts and {count} pairs; {}", said.join(", "))),
    }
}

fn generated(felgotany: &str, seed: u64, count: u64, folder: &Path) -> Result<Tally, String> {
    let mut tally = Tally::new();
    let [morning, noon] = ["morning", "noon"].map(|name| folder.join(name));
    let write = |path: &Path, bytes: &[u8]| fs::write(path, bytes).map_err(|fault| fault.to_string());
    for index in 0..count {
        write(&morning, &generate::account(seed, index))?;
        compare(felgotany, &morning, None, &mut tally).map_err(|fault| format!("seed {seed} index {index}: {fault}"))?;
        let pair = generate::pair(seed, index);
        write(&morning, &pair.0)?;
        write(&noon, &pair.1)?;
        compare(felgotany, &morning, Some(&noon), &mut tally).map_err(|fault| format!("seed {seed} pair {index}: {fault}"))?;
    }
    Ok(tally)
}

fn of_files(felgotany: &str, account: &str, noon: Option<&str>) -> Result<String, String> {
    let mut tally = Tally::new();
    compare(felgotany, Path::new(account), noon.map(Path::new), &mut tally).map_err(|fault| format!("{account}: {fault}"))?;
    Ok(format!("{account}: {}", tally.keys().cloned().collect::<Vec<_>>().join(", ")))
}

/// What the command prints, and its exit status.
fn asked(felgotany: &str, words: &[&str]) -> Result<(String, i32), String> {
    let done = Command::new(felgotany).args(words).output().map_err(|fault| fault.to_string())?;
    let printed = String::from_utf8(done.stdout).map_err(|fault| fault.to_string())?;
    Ok((printed, done.status.code().unwrap_or(-1)))
}

/// The file of an account, or of two joined; nothing where it is refused.
fn accepted(account: &Path, noon: Option<&Path>) -> Option<Vec<u8>> {
    let read = |path: &Path| fs::read(path).ok();
    match noon {
        None => read(account).filter(|file| check(file).is_ok()),
        Some(noon) => joined::join(&read(account)?, &read(noon)?).ok(),
    }
}

fn compare(felgotany: &str, account: &Path, noon: Option<&Path>, tally: &mut Tally) -> Result<(), String> {
    let name = account.display().to_string();
    let of_noon = noon.map(|noon| noon.display().to_string());
    let mut words = vec!["report", "--empty", &name];
    let mut asked_lines = vec!["book", "--empty", "--lines", &name];
    if let Some(noon) = &of_noon {
        words.extend(["--noon", noon]);
        asked_lines = vec!["noon", "--empty", "--lines", &name, noon];
    }
    let (text, status) = asked(felgotany, &words)?;
    let (page, of_page) = asked(felgotany, &[&words[..], &["--html"]].concat())?;
    let (printed, of_lines) = asked(felgotany, &asked_lines)?;
    if [status, of_page] != [of_lines; 2] {
        return Err(format!("exit statuses {status}, {of_page} and {of_lines}"));
    }
    let mut count = |what: &str| *tally.entry(what.to_string()).or_default() += 1;
    if status == NOT_READ {
        count("not read");
        return if [text, page, printed].concat().is_empty() {
            Ok(())
        } else {
            Err("something is printed of what is not read".to_string())
        };
    }
    let Some(file) = accepted(account, noon) else {
        count("refused");
        return refused(&printed, &text, &page, status);
    };
    let account: Account = check(&file).map_err(|_| "01 accepts no such account".to_string())?;
    if file.is_empty() {
        count("empty");
        let empty = "The account is empty: it has no records. Its margin is 0.00.";
        return if text.contains(empty) && page.contains(empty) { Ok(()) } else { Err("not said to be empty".to_string()) };
    }
    let tables = Tables::of_page(&page);
    tables.in_text(&text)?;
    let wanted: String = printed.lines().filter(|line| !line.starts_with('F')).map(|line| format!("{line}\n")).collect();
    same_lines(&wanted, &lines::of(&tables)?)?;
    working::compare(&tables, &account, &file[..file.len() / RECORD_BYTES * RECORD_BYTES])?;
    for answer in working::answers(&text, &account)? {
        count(answer);
    }
    Ok(())
}

/// A refusal is told in words in both forms, with its number, and no table has a figure.
fn refused(printed: &str, text: &str, page: &str, status: i32) -> Result<(), String> {
    let number = printed.split_whitespace().rev().nth(1).unwrap_or("none");
    let told = format!("refusal {number}, ");
    let said = [text, page].iter().all(|report| report.contains(&told) && report.contains("No figure was worked out"));
    if status == 1 && said && !page.contains("<table") {
        return Ok(());
    }
    Err(format!("refusal {number} is not told in words"))
}

fn same_lines(wanted: &str, found: &str) -> Result<(), String> {
    let differ = wanted.lines().zip(found.lines()).find(|(wanted, found)| wanted != found);
    match differ {
        Some((wanted, found)) => Err(format!("the lines say '{wanted}', the page '{found}'")),
        None if wanted.lines().count() != found.lines().count() => Err("the page has more or fewer lines".to_string()),
        None => Ok(()),
    }
}

fn browser(lines: &str, seen: &str) -> Result<String, String> {
    let read = |path: &str| fs::read_to_string(path).map_err(|fault| format!("{path}: {fault}"));
    let tables = Tables::of_seen(&read(seen)?);
    let wanted: String =
        read(lines)?.lines().filter(|line| !line.starts_with(['F', 'L'])).map(|line| format!("{line}\n")).collect();
    same_lines(&wanted, &lines::of(&tables)?)?;
    Ok(format!("{} lines are what the browser shows", wanted.lines().count()))
}
