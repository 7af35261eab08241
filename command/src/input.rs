//! An account by its name: an account file or its text form.

use crate::failure::Failure;
use account_text::explain::{others, refused};
use account_text::write::{write, Misread, Written};
use felgotany::refusals::{NOT_WHOLE_RECORDS, TOO_LONG};
use felgotany::{Outcome, WriteOutcome};
use independent::format::{Record, DAY, ENTRY, MOST_BYTES, PROMPT, RECORD_BYTES};
use std::fs::File;
use std::io::{self, IsTerminal, Read};
use std::path::Path;

/// The name that is standard input.
pub const STANDARD: &str = "-";

/// Longer texts are not read: 640 records take a tenth of this.
const LONGEST_TEXT: usize = 4 << 20;

/// How many further faults of a refused account are told.
const MOST_OTHERS: usize = 20;

/// The bytes of an account, and the text that they were written from.
pub struct Input {
    pub name: String,
    pub file: Vec<u8>,
    text: Option<Written>,
}

impl Input {
    /// The account of this name; - is standard input. One without records must be asked for.
    pub fn load(path: &Path, empty: bool) -> Result<Input, Failure> {
        let (name, from) = named(path, "account")?;
        Input::read(name, from, empty)
    }

    /// The account in a file, whatever its name.
    pub fn open(path: &Path, empty: bool) -> Result<Input, Failure> {
        let (name, file) = opened(path)?;
        Input::read(name, file, empty)
    }

    fn read(name: String, mut from: impl Read, empty: bool) -> Result<Input, Failure> {
        let told = |fault: io::Error| Failure::not_read(format!("{name}: {fault}"));
        let bytes = read_up_to(&mut from, MOST_BYTES + 1).map_err(told)?;
        let input = match is_text(&bytes) {
            true => {
                let rest = read_up_to(&mut from, LONGEST_TEXT + 1 - bytes.len()).map_err(told)?;
                Input::of_text(name, [bytes, rest].concat())?
            }
            false => Input::of_file(name, bytes)?,
        };
        if input.file.is_empty() && !empty {
            let told = format!("{}: no records; --empty says that an empty account is meant", input.name);
            return Err(Failure::not_read(told));
        }
        Ok(input)
    }

    fn of_text(name: String, text: Vec<u8>) -> Result<Input, Failure> {
        not_too_long(&name, &text)?;
        match write(&text) {
            Ok(written) => Ok(Input { name, file: written.file.clone(), text: Some(written) }),
            Err(misread) => Err(Failure::not_read(misread_lines(&name, &misread))),
        }
    }

    fn of_file(name: String, file: Vec<u8>) -> Result<Input, Failure> {
        no_spreadsheet(&name, &file)?;
        Ok(Input { name, file, text: None })
    }

    /// The account, if it is accepted.
    pub fn accepted(self) -> Result<Input, Failure> {
        match felgotany::check(&self.file) {
            Outcome { refusal: 0, .. } => Ok(self),
            verdict => Err(self.refusal(verdict)),
        }
    }

    /// The account file of the records as entries, in any order, as the library writes it.
    pub fn entered(self) -> Result<Vec<u8>, Failure> {
        let mut file = vec![0; self.file.len()];
        match felgotany::write(&self.file, &mut file) {
            WriteOutcome { refusal: 0, written, .. } => {
                file.truncate(written);
                Ok(file)
            }
            WriteOutcome { refusal, entry, .. } => {
                let (sorted, record) = in_file_order(&self.file, entry);
                let words = refused(&sorted, Outcome { refusal, record }).unwrap_or_default();
                let at = match refusal {
                    TOO_LONG | NOT_WHOLE_RECORDS => String::new(),
                    _ => format!(", {}", self.place(entry).replacen("record", "entry", 1)),
                };
                Err(Failure::refused(format!("{}: refusal {refusal}{at}{words}", self.name), format!("R {refusal} {entry}")))
            }
        }
    }

    /// What is told of a refusal of the check.
    pub fn refusal(&self, verdict: Outcome) -> Failure {
        let Outcome { refusal, record } = verdict;
        let line = format!("R {refusal} {record}");
        Failure::refused(format!("{}: {}", self.name, self.refusal_in_words(verdict)), line)
    }

    /// A refusal of the check in words: what is refused, the fault, and other records with a fault of their own.
    pub fn refusal_in_words(&self, verdict: Outcome) -> String {
        let Outcome { refusal, record } = verdict;
        let refused = refused(&self.file, verdict).unwrap_or_default();
        if matches!(refusal, TOO_LONG | NOT_WHOLE_RECORDS) {
            return format!("refusal {refusal}, record {record}{refused}");
        }
        let mut told = format!("refusal {refusal}, {}{refused}", self.place(record));
        let others = others(&self.file, verdict);
        for (record, fault) in others.iter().take(MOST_OTHERS) {
            told += &format!("\n  also {}: {fault}", self.place(*record));
        }
        if others.len() > MOST_OTHERS {
            told += &format!("\n  and {} more records", others.len() - MOST_OTHERS);
        }
        told
    }

    /// A record by its number, and where it stands in the text.
    pub fn place(&self, record: usize) -> String {
        match self.text.as_ref().and_then(|text| text.line_of(record)) {
            Some(line) => format!("record {record} on line {line}"),
            None => format!("record {record}"),
        }
    }
}

/// The entries in the file's order, to tell a fault of one, and its record there.
fn in_file_order(entries: &[u8], entry: usize) -> (Vec<u8>, usize) {
    let (records, cut) = entries.as_chunks::<RECORD_BYTES>();
    let key = |record: &[u8; RECORD_BYTES]| match record[0] {
        PROMPT => (PROMPT, record[1], Record(record).get(DAY)),
        ENTRY => (ENTRY, 0, 0),
        kind => (kind, record[1], 0),
    };
    let mut order: Vec<usize> = (0..records.len()).collect();
    order.sort_by_key(|&place| key(&records[place]));
    let sorted = order.iter().flat_map(|&place| records[place]).chain(cut.iter().copied()).collect();
    (sorted, order.iter().position(|&place| place == entry).unwrap_or(0))
}

fn opened(path: &Path) -> Result<(String, Box<dyn Read>), Failure> {
    let name = path.display().to_string();
    match File::open(path) {
        Ok(file) => Ok((name, Box::new(file))),
        Err(fault) => Err(Failure::not_read(format!("{name}: {fault}"))),
    }
}

/// A file or standard input by its name.
fn named(path: &Path, what: &str) -> Result<(String, Box<dyn Read>), Failure> {
    if path != Path::new(STANDARD) {
        return opened(path);
    }
    if io::stdin().is_terminal() {
        return Err(Failure::called_wrongly(format!("no {what} is named")));
    }
    Ok(("standard input".to_string(), Box::new(io::stdin())))
}

/// The name and the bytes of a list of spreads, which is a text.
pub fn text_of(path: &Path) -> Result<(String, Vec<u8>), Failure> {
    let (name, mut from) = named(path, "list")?;
    let text = read_up_to(&mut from, LONGEST_TEXT + 1).map_err(|fault| Failure::not_read(format!("{name}: {fault}")))?;
    not_too_long(&name, &text)?;
    no_spreadsheet(&name, &text)?;
    Ok((name, text))
}

fn not_too_long(name: &str, text: &[u8]) -> Result<(), Failure> {
    match text.len() {
        0..=LONGEST_TEXT => Ok(()),
        _ => Err(Failure::not_read(format!("{name}: a text of more than {LONGEST_TEXT} bytes"))),
    }
}

fn no_spreadsheet(name: &str, file: &[u8]) -> Result<(), Failure> {
    let saved_as = match file[..] {
        [0xff, 0xfe, ..] | [0xfe, 0xff, ..] => "text in UTF-16: save it as CSV in UTF-8",
        [b'P', b'K', 3, 4, ..] => "a spreadsheet: save it as CSV in UTF-8",
        _ => return Ok(()),
    };
    Err(Failure::not_read(format!("{name}: {saved_as}")))
}

/// Every line of a text that cannot be written.
pub fn misread_lines(name: &str, misread: &[Misread]) -> String {
    let lines: Vec<String> = misread.iter().map(|misread| format!("{name}: {misread}")).collect();
    lines.join("\n")
}

fn read_up_to(from: &mut impl Read, most: usize) -> io::Result<Vec<u8>> {
    let mut bytes = vec![];
    from.take(most as u64).read_to_end(&mut bytes)?;
    Ok(bytes)
}

/// Whether these bytes are a text: no byte is a control mark but for tabs and line ends. No account that is accepted is
/// taken for a text, since each kind is such a mark.
fn is_text(bytes: &[u8]) -> bool {
    bytes.iter().all(|byte| *byte >= b' ' || matches!(byte, b'\t' | b'\n' | b'\r'))
}
