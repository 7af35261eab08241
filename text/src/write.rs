//! Writing an account file from its text form, or saying where the text cannot be written.

use crate::columns::{self, Kind, BYTES, HEX, KINDS};
use crate::{fault, meant};
use independent::format::{Field, Record, RECORD_BYTES};
use std::fmt;

/// How much of a cell is shown.
const SHOWN: usize = 40;

/// Where a text cannot be written: the line, counted from 1, the column, what stands there, what can
/// stand there, and what was probably meant.
#[derive(Debug, PartialEq, Eq)]
pub struct Misread {
    pub line: usize,
    pub column: String,
    pub found: String,
    pub expected: String,
    pub meant: Option<String>,
}

impl fmt::Display for Misread {
    fn fmt(&self, out: &mut fmt::Formatter<'_>) -> fmt::Result {
        let shown: String = self.found.chars().take(SHOWN).flat_map(char::escape_debug).collect();
        let found = match self.found.chars().count() {
            0 => "nothing".to_string(),
            1..=SHOWN => format!("'{shown}'"),
            _ => format!("'{shown}..'"),
        };
        let Misread { line, column, expected, .. } = self;
        write!(out, "line {line}, {column}: found {found}, expected {expected}")?;
        match &self.meant {
            Some(meant) => write!(out, "; {meant}"),
            None => Ok(()),
        }
    }
}

/// An account file that was written from a text, and which line each of its parts comes from.
#[derive(Debug, PartialEq, Eq)]
pub struct Written {
    pub file: Vec<u8>,
    /// For each line that gives bytes, its number and where its bytes begin.
    lines: Vec<(usize, usize)>,
}

impl Written {
    /// The line that a record begins on.
    pub fn line_of(&self, record: usize) -> Option<usize> {
        let from = record * RECORD_BYTES;
        let lines = self.lines.iter().take_while(|(_, begins)| *begins <= from);
        lines.last().map(|(line, _)| *line)
    }
}

/// The account file of a text, or every line that cannot be written. Lines that are empty or begin with
/// # say nothing; a line ends with CR, LF or both.
pub fn write(text: &[u8]) -> Result<Written, Vec<Misread>> {
    let text = String::from_utf8_lossy(text).replace("\r\n", "\n").replace('\r', "\n");
    let mut written = Written { file: vec![], lines: vec![] };
    let mut misread = vec![];
    for (place, line) in text.trim_start_matches('\u{feff}').lines().enumerate() {
        let line = Line { number: place + 1, cells: cells(line) };
        match line.bytes() {
            Ok(bytes) if bytes.is_empty() => {}
            Ok(bytes) => {
                written.lines.push((line.number, written.file.len()));
                written.file.extend(bytes);
            }
            Err(fault) => misread.push(fault),
        }
    }
    if misread.is_empty() {
        Ok(written)
    } else {
        Err(misread)
    }
}

/// The cells of a line. A line is read by itself, so that a quotation mark that is not closed takes no
/// other line with it. Empty cells at the end come from spreadsheets.
fn cells(line: &str) -> csv::StringRecord {
    let mut reader = csv::ReaderBuilder::new();
    let reader = reader.has_headers(false).flexible(true).trim(csv::Trim::All);
    let mut record = csv::StringRecord::new();
    // text in UTF-8 in memory is always read
    _ = reader.from_reader(line.as_bytes()).read_record(&mut record);
    let empty = record.iter().rev().take_while(|cell| cell.is_empty()).count();
    record.truncate(record.len() - empty);
    record
}

struct Line {
    number: usize,
    cells: csv::StringRecord,
}

impl Line {
    /// The cell at a place, the name of the line being at place 0; empty where the line has ended.
    fn cell(&self, place: usize) -> &str {
        self.cells.get(place).unwrap_or("")
    }

    fn misread(&self, column: &str, found: &str, expected: String) -> Misread {
        let (column, found) = (column.to_string(), found.to_string());
        Misread { line: self.number, column, found, expected, meant: None }
    }

    /// The bytes that the line gives; none for one that says nothing.
    fn bytes(&self) -> Result<Vec<u8>, Misread> {
        let name = self.cell(0);
        if self.cells.is_empty() || name.starts_with('#') {
            return Ok(vec![]);
        }
        if name == BYTES {
            self.ends_at(2)?;
            return hex_bytes(self.cell(1)).ok_or_else(|| {
                let expected = "0x and two hexadecimal digits for each byte".to_string();
                self.misread(HEX, self.cell(1), expected)
            });
        }
        match KINDS.iter().find(|kind| kind.name == name) {
            Some(kind) => self.record(kind),
            None => {
                let names: Vec<&str> = KINDS.iter().map(|kind| kind.name).collect();
                let mut fault =
                    self.misread("kind", name, format!("{} or {BYTES}", names.join(", ")));
                fault.meant = meant::kind(name);
                Err(fault)
            }
        }
    }

    /// Each column is read into its field; which columns follow is seen from the fields before them.
    fn record(&self, kind: &Kind) -> Result<Vec<u8>, Misread> {
        let mut record = vec![0; RECORD_BYTES];
        record[0] = kind.kind;
        let mut place = 0;
        while let Some(&(column, field)) = columns::fields(Record(&record)).get(place) {
            place += 1;
            let cell = self.cell(place);
            match number(column, field, cell) {
                Some(number) => put(&mut record, field, number),
                None => return Err(self.misread_cell(record, place)),
            }
        }
        self.ends_at(place + 1)?;
        Ok(record)
    }

    /// A cell that cannot be read. What can stand there may go by a cell after it, as the range of a ratio
    /// goes by whether the ratios are tenths.
    fn misread_cell(&self, mut record: Vec<u8>, place: usize) -> Misread {
        for (at, (column, field)) in columns::fields(Record(&record)).into_iter().enumerate() {
            if let Some(number) = number(column, field, self.cell(at + 1)) {
                put(&mut record, field, number);
            }
        }
        let (column, field) = columns::fields(Record(&record))[place - 1];
        let cell = self.cell(place);
        let mut fault = self.misread(column, cell, expected(&record, column, field));
        fault.meant = meant::cell(column, field, cell);
        fault
    }

    fn ends_at(&self, columns: usize) -> Result<(), Misread> {
        if self.cells.len() <= columns {
            return Ok(());
        }
        let expected = format!("the line to end after {columns} columns");
        let mut fault =
            self.misread(&format!("column {}", columns + 1), self.cell(columns), expected);
        fault.meant = meant::one_more(self.cell(columns));
        Err(fault)
    }
}

fn put(record: &mut [u8], field: Field, number: i64) {
    record[field.at..field.at + field.bytes].copy_from_slice(&number.to_le_bytes()[..field.bytes]);
}

/// The number of a cell, by its word or as far as the field's bytes hold it.
fn number(column: &str, field: Field, cell: &str) -> Option<i64> {
    if let Some((number, _)) = columns::words(column).iter().find(|(_, word)| *word == cell) {
        return Some(*number);
    }
    if let Some(number) = columns::left_out(field) {
        // three zeros are the rest of a number that had a comma
        if cell.is_empty() || cell == "000" {
            return cell.is_empty().then_some(number);
        }
    }
    let (least, most) = held(field);
    let number = cell.parse().ok()?;
    ((least..=most).contains(&number) && columns::word(column, number).is_none()).then_some(number)
}

/// What can stand in a cell: a word of its column, or a number of its range.
fn expected(record: &[u8], column: &str, field: Field) -> String {
    match columns::words(column) {
        [] => format!("a whole number {}", fault::range(Record(record), column, field)),
        [words @ .., (_, last)] => {
            let words: Vec<&str> = words.iter().map(|(_, word)| *word).collect();
            format!("{} or {last}", words.join(", "))
        }
    }
}

/// The least and the largest number that a field's bytes hold, whatever its range.
fn held(field: Field) -> (i64, i64) {
    let numbers = 1 << (8 * field.bytes);
    if field.signed {
        (-numbers / 2, numbers / 2 - 1)
    } else {
        (0, numbers - 1)
    }
}

fn hex_bytes(cell: &str) -> Option<Vec<u8>> {
    let digits: Vec<u8> =
        cell.strip_prefix("0x")?.chars().map(hex_digit).collect::<Option<Vec<u8>>>()?;
    let whole = !digits.is_empty() && digits.len().is_multiple_of(2);
    whole.then(|| digits.chunks(2).map(|digits| 16 * digits[0] + digits[1]).collect())
}

fn hex_digit(digit: char) -> Option<u8> {
    digit.to_digit(16).and_then(|digit| u8::try_from(digit).ok())
}
