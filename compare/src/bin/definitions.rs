//! definitions FOLDER: a module of claims about the definitions, for what FOLDER holds. Whoever checks the module has the
//! definitions computed, and they must be what the independent program says:
//!
//! NAME.account: of a file, the refusal and its record, and of an accepted one the figures, all delta books and who paid in each,
//! and what is answered with too few numbers lent for the figures.
//! NAME.morning, NAME.noon: of a pair of files, the same of the joined account, with the file that a refusal is about, where the
//! prompts stand, and the call at its thresholds.
//! NAME.record: of a record, that an unused byte is not zero, or else whether a field is outside its range.

use independent::check::fault;
use independent::format::Record;
use independent::joined::{self, Cover};
use independent::refusal::{OUT_OF_RANGE, UNUSED_BYTE};
use independent::units::Amount;
use independent::{book, check, figures, uses, PairRefusal};
use std::fmt::Write;
use std::path::Path;
use std::{fs, io};

const MOST_NUMBERS: usize = 161;
const MOST_USES: usize = 2048;
const TABLE_QUESTION: u64 = 16;
/// The contracts of the chosen pairs.
const CONTRACTS: [u64; 3] = [0, 3, 5];

const HEADER: &str = "-- What the definitions compute, checked against the independent program.
use Rattle.std.specs.Prelude.{ℕ, ◌≡◌, refl, true, false, List, [], ◌∷◌, ◌++◌, ℤ, pos, negsuc, replicate}
use Rattle.record.specs.Ranges.{unused_byte, field_outside}
use Rattle.account.specs.Answers.{number_of, record_of}
use Rattle.account.specs.Checked.{checked}
use Rattle.account.specs.Noon.{joined_verdict, prompt_place}
use Rattle.account.specs.Records.{records}
use Rattle.account.specs.Joined.{account_of}
use Rattle.margin.specs.Books.{answered, book}
use Rattle.margin.specs.Figures.{figures}
use Rattle.margin.specs.Uses.{uses}
use Rattle.questions.specs.Noon.{joined_call}
use Rattle.questions.specs.Questions.{figures_answer}
";

fn main() -> io::Result<()> {
    let words: Vec<String> = std::env::args().skip(1).collect();
    let [folder] = &words[..] else {
        eprintln!("usage: definitions FOLDER");
        std::process::exit(2);
    };
    let mut files: Vec<_> = fs::read_dir(folder)?.collect::<Result<_, _>>()?;
    files.sort_by_key(|file| file.file_name());
    let mut module = String::from(HEADER);
    let (mut accounts, mut pairs, mut records) = (0, 0, 0);
    for file in &files {
        let path = file.path();
        let name = path.file_stem().and_then(|name| name.to_str()).unwrap_or_default();
        match path.extension().and_then(|kind| kind.to_str()) {
            Some("account") => {
                accounts += 1;
                claim_file(&mut module, name, &fs::read(&path)?);
            }
            Some("morning") => {
                pairs += 1;
                claim_pair(&mut module, name, &fs::read(&path)?, &noon_of(&path)?);
            }
            Some("record") => {
                records += 1;
                claim_record(&mut module, name, &fs::read(&path)?);
            }
            _ => {}
        }
    }
    print!("{module}");
    eprintln!("{accounts} accounts, {pairs} pairs, {records} records\ncases: {}", accounts + pairs + records);
    Ok(())
}

fn noon_of(morning: &Path) -> io::Result<Vec<u8>> {
    fs::read(morning.with_extension("noon"))
}

/// What is claimed of one record.
fn claim_record(module: &mut String, name: &str, record: &[u8]) {
    let (definition, number) =
        if fault(UNUSED_BYTE, Record(record), &[]) { ("unused_byte", UNUSED_BYTE) } else { ("field_outside", OUT_OF_RANGE) };
    let found = fault(number, Record(record), &[]);
    claim(module, &format!("{definition}-{name}"), &format!("{definition} ({})", bytes(record)), found);
}

/// What is claimed of one file.
fn claim_file(module: &mut String, name: &str, file: &[u8]) {
    let (number, record) = check(file).map_or_else(|refusal| (refusal.number, refusal.record), |_| (0, 0));
    writeln!(module, "\nabbrev file-{name} : List ℕ\nfile-{name} = {}", bytes(file)).unwrap();
    claim(module, &format!("number-{name}"), &format!("number_of (checked file-{name})"), number);
    claim(module, &format!("record-{name}"), &format!("record_of (checked file-{name})"), record);
    if number != 0 {
        return;
    }
    let mut lent = [0; MOST_NUMBERS];
    let written = figures(file, &mut lent).expect("figures of an accepted file");
    for lent in [written - 1, written] {
        let refusal =
            figures(file, &mut [0; MOST_NUMBERS][..lent]).map_or_else(|refusal| (refusal.number, refusal.record), |_| (0, 0));
        let answer = format!("(figures_answer file-{name} {lent})");
        claim(module, &format!("lent-{name}-{lent}"), &format!("number_of {answer}"), refusal.0);
        claim(module, &format!("lent-record-{name}-{lent}"), &format!("record_of {answer}"), refusal.1);
    }
    let given = format!("(records file-{name})");
    claim(module, &format!("figures-{name}"), &format!("figures {given}"), numbers(&lent[..written]));
    let book = |question, lent: &mut [i64]| book(file, question, lent).ok();
    let uses = |question, lent: &mut [i64]| uses(file, question, lent).ok();
    claim_books(module, name, &given, (0..=TABLE_QUESTION + 1).chain([256, 256 + TABLE_QUESTION]), book, uses);
}

/// What is claimed of a pair.
fn claim_pair(module: &mut String, name: &str, morning: &[u8], noon: &[u8]) {
    for (file, listed) in [("morning", morning), ("noon", noon)] {
        writeln!(module, "\nabbrev {file}-{name} : List ℕ\n{file}-{name} = {}", bytes(listed)).unwrap();
    }
    let given = format!("morning-{name} noon-{name}");
    let joined = joined::join(morning, noon);
    claim_verdict(module, &format!("joined-{name}"), &format!("(joined_verdict {given})"), outcome(&joined));
    for contract in CONTRACTS {
        let part = joined::prompts(morning, noon, contract);
        for (field, found) in [("file", usize::from(part.file)), ("first", part.first), ("records", part.records)] {
            claim(module, &format!("{field}-{name}-{contract}"), &format!("(prompt_place {given} {contract}).{field}"), found);
        }
    }
    let mut lent = [0; MOST_NUMBERS];
    let written = joined::figures(morning, noon, &mut lent);
    let total = written.as_ref().map_or(0, |&written| lent[written - 1]);
    if let Ok(written) = written {
        let account = format!("(account_of {given})");
        claim(module, &format!("figures-{name}"), &format!("figures {account}"), numbers(&lent[..written]));
        let book = |question, lent: &mut [i64]| joined::book(morning, noon, question, lent).ok();
        let uses = |question, lent: &mut [i64]| joined::uses(morning, noon, question, lent).ok();
        claim_books(module, name, &account, CONTRACTS.into_iter().chain([TABLE_QUESTION]), book, uses);
    }
    // the call where its two comparisons turn, and amounts past the ends of their range
    let below = (total - 1).max(0);
    for (place, amounts) in [[below, 0, below], [below, 1, 0], [total, 0, 0], [0, 0, total], [below, 0, 0]].iter().enumerate() {
        let call = call_of(&given, amounts);
        let answer = joined::call(morning, noon, cover(amounts));
        claim(module, &format!("call-{name}-{place}"), &format!("{call}.amount.0"), answer.map_or(0, |call| call.0));
    }
    let most = 1_000_000_000_000_000;
    for (place, amounts) in [[most, most, most], [most + 1, 0, 0], [0, most + 1, 0], [0, 0, -1]].iter().enumerate() {
        let verdict = format!("{}.verdict", call_of(&given, amounts));
        claim_verdict(module, &format!("called-{name}-{place}"), &verdict, outcome(&joined::call(morning, noon, cover(amounts))));
    }
}

fn call_of(given: &str, amounts: &[i64; 3]) -> String {
    format!("(joined_call {given} {})", amounts.map(integer).join(" "))
}

fn cover(amounts: &[i64; 3]) -> Cover {
    let [last_call, threshold, collateral] = amounts.map(Amount);
    Cover { last_call, threshold, collateral }
}

fn outcome<T>(answer: &Result<T, PairRefusal>) -> (u8, u8, usize) {
    answer.as_ref().map_or_else(|refusal| (refusal.file, refusal.number, refusal.record), |_| (0, 0, 0))
}

/// The file, the number and the record of what is said of a pair.
fn claim_verdict(module: &mut String, name: &str, verdict: &str, (file, number, record): (u8, u8, usize)) {
    claim(module, &format!("{name}-file"), &format!("{verdict}.file"), file);
    claim(module, &format!("{name}-number"), &format!("number_of {verdict}.answer"), number);
    claim(module, &format!("{name}-record"), &format!("record_of {verdict}.answer"), record);
}

/// Which questions are answered, and the books and the uses of those.
fn claim_books(
    module: &mut String,
    name: &str,
    account: &str,
    questions: impl Iterator<Item = u64>,
    book: impl Fn(u64, &mut [i64]) -> Option<usize>,
    uses: impl Fn(u64, &mut [i64]) -> Option<usize>,
) {
    for question in questions {
        let asked = format!("{name}-{question}");
        let mut lent = [0; MOST_NUMBERS];
        let found = book(question, &mut lent);
        claim(module, &format!("asked-{asked}"), &format!("answered {account} {question}"), found.is_some());
        let Some(written) = found else { continue };
        claim(module, &format!("book-{asked}"), &format!("book {account} {question}"), numbers(&lent[..written]));
        let mut lent = [0; MOST_USES];
        let written = uses(question, &mut lent).expect("uses of a book that is answered");
        claim(module, &format!("uses-{asked}"), &format!("uses {account} {question}"), numbers(&lent[..written]));
    }
}

/// That a definition, of what it is given, is just this.
fn claim(module: &mut String, name: &str, definition: &str, found: impl std::fmt::Display) {
    writeln!(module, "\n{name} : {definition} ≡ {found}\n{name} = refl").unwrap();
}

/// A list of bytes, runs of zeros written as such.
fn bytes(file: &[u8]) -> String {
    let mut text = String::new();
    let mut at = 0;
    while at < file.len() {
        let zeros = file[at..].iter().take_while(|&&byte| byte == 0).count();
        if zeros > 4 {
            write!(text, "replicate {zeros} 0 ++ ").unwrap();
            at += zeros;
        } else {
            let run = file[at..].iter().take(16).count();
            let run = (1..run).find(|&n| file[at + n..].iter().take_while(|&&byte| byte == 0).count() > 4).unwrap_or(run);
            let listed: String = file[at..at + run].iter().map(|byte| format!("{byte} ∷ ")).collect();
            write!(text, "({listed}[]) ++ ").unwrap();
            at += run;
        }
    }
    text + "[]"
}

/// A signed number, and a list of them.
fn integer(number: i64) -> String {
    if number < 0 {
        format!("(negsuc {})", -(number + 1))
    } else {
        format!("(pos {number})")
    }
}

fn numbers(list: &[i64]) -> String {
    let listed: String = list.iter().map(|&number| integer(number) + " ∷ ").collect();
    listed + "[]"
}
