//! The examples and the documents: what they print is what the programs print.

use account_text::columns::{self, KINDS};
use account_text::explain::explain;
use account_text::wording;
use account_text::write::write;
use independent::format::{loss, Field, Record, MOST_RECORDS, RECORD_BYTES, SCENARIOS};
use std::fs;

pub struct Example {
    pub name: String,
    pub file: Vec<u8>,
    text: String,
}

/// The accounts of examples/, each with its text.
pub fn examples() -> Result<Vec<Example>, String> {
    let entries = fs::read_dir("examples").map_err(|fault| format!("examples: {fault}"))?;
    let paths = entries.filter_map(|entry| Some(entry.ok()?.path()));
    let mut examples = vec![];
    for path in paths.filter(|path| path.extension().is_some_and(|end| end == "account")) {
        let name = path.display().to_string();
        let file = fs::read(&path).map_err(|fault| format!("{name}: {fault}"))?;
        let text = load(&path.with_extension("csv").display().to_string())?;
        examples.push(Example { name, file, text });
    }
    examples.sort_by(|first, second| first.name.cmp(&second.name));
    Ok(examples)
}

fn load(name: &str) -> Result<String, String> {
    fs::read_to_string(name).map_err(|fault| format!("{name}: {fault}"))
}

impl Example {
    /// Its text writes it; the figures in its comments are the independent program's, and an example
    /// has them exactly if it is accepted.
    pub fn hold(&self) -> Result<(), String> {
        let written =
            write(self.text.as_bytes()).map_err(|misread| format!("{}: {misread:?}", self.name))?;
        if written.file != self.file {
            return Err(format!("{}: its text writes other bytes", self.name));
        }
        let comments = self.text.lines().filter_map(|line| line.strip_prefix("# "));
        let stated: Vec<&str> =
            comments.filter(|line| line.starts_with("C ") || line.starts_with("T ")).collect();
        let figures = figures(&self.file);
        if stated != figures {
            return Err(format!(
                "{}: it states {stated:?}, its figures are {figures:?}",
                self.name
            ));
        }
        Ok(())
    }
}

/// The lines of figures of an accepted file, none of a refused one.
fn figures(file: &[u8]) -> Vec<String> {
    let mut lent = [0; 129];
    let Ok(written) = independent::figures(file, &mut lent) else { return vec![] };
    let line = |numbers: &[i64]| {
        let letter = if numbers.len() == 8 { "C" } else { "T" };
        let numbers: Vec<String> = numbers.iter().map(i64::to_string).collect();
        format!("{letter} {}", numbers.join(" "))
    };
    lent[..written].chunks(8).map(line).collect()
}

/// docs/REFUSALS.md has every line of the table and, for each refused example and for a file of too
/// many records, what is printed of it.
pub fn hold_refusals(examples: &[Example]) -> Result<(), String> {
    let document = load("docs/REFUSALS.md")?;
    let has = |what: &str, name: &str| match document.contains(what) {
        true => Ok(()),
        false => Err(format!("docs/REFUSALS.md has not, for {name}:\n{what}")),
    };
    for line in wording::table().lines() {
        has(line.trim(), "the table")?;
    }
    let mut one = [0; RECORD_BYTES];
    one[0] = 1;
    let too_long = one.repeat(MOST_RECORDS + 1);
    let files = examples.iter().map(|example| (example.name.as_str(), &example.file));
    for (name, file) in files.chain([("too many records", &too_long)]) {
        let verdict = felgotany::check(file);
        if verdict.refusal != 0 {
            let said = explain(file, verdict).ok_or(format!("{name}: no fault is found"))?;
            has(&said, name)?;
        }
    }
    Ok(())
}

/// docs/FILE.md has, under each kind, a line for each field with its offset, width, name and range; one
/// line for the sixteen losses.
pub fn hold_file() -> Result<(), String> {
    let document = load("docs/FILE.md")?.replace(',', "");
    for kind in &KINDS {
        let heading = format!("\n## Kind {}: {}\n", kind.kind, kind.name);
        let missing = |what: &str| format!("docs/FILE.md has not:{heading}{what}");
        let section = document.split(&heading).nth(1).ok_or_else(|| missing(""))?;
        let section = section.split("\n## ").next().unwrap_or("");
        // byte 2 is the class of a row and the number of legs of a spread, byte 8 the tenths of an entry
        for (byte_2, byte_8) in (0..=3).flat_map(|byte_2| [(byte_2, 0), (byte_2, 1)]) {
            let mut record = [0; RECORD_BYTES];
            record[..3].copy_from_slice(&[kind.kind, 0, byte_2]);
            record[8] = byte_8;
            for (column, field) in columns::fields(Record(&record)) {
                let (begins, range) = line_of(column, field);
                let holds = |line: &str| line.starts_with(&begins) && line.contains(&range);
                if !section.lines().any(holds) {
                    return Err(missing(&format!("{begins}..{range}")));
                }
            }
        }
    }
    Ok(())
}

/// How the line of a field begins, and the range that it has.
fn line_of(column: &str, field: Field) -> (String, String) {
    let losses = loss(0).at..loss(SCENARIOS).at;
    let (from, to, bytes) = match column.starts_with("loss") {
        true => (losses.start, losses.end, format!("{SCENARIOS} x {}", field.bytes)),
        false => (field.at, field.at + field.bytes, field.bytes.to_string()),
    };
    let column = if column.starts_with("loss") { "loss 1 to loss 16" } else { column };
    let place = if to - from == 1 { from.to_string() } else { format!("{from}-{}", to - 1) };
    let signed = if field.signed { "yes" } else { "no" };
    let range = match field.least == field.most {
        true => format!(" {} ", field.least),
        false => format!(" {}..{} ", field.least, field.most),
    };
    (format!("| {place} | {bytes} | {signed} | {column} |"), range)
}
