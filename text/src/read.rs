//! Reading an account file as text: any bytes at all, such that writing the text gives them again.

use crate::columns::{self, Kind};
use independent::format::{Record, RECORD_BYTES};

/// What an account without records is read as.
const NO_RECORDS: &str = "# no records\n";

/// The text form of a file: a line for each record, under a line of its columns where the kind changes.
pub fn read(file: &[u8]) -> String {
    if file.is_empty() {
        return NO_RECORDS.to_string();
    }
    let mut text = String::new();
    let mut before = "";
    for bytes in file.chunks(RECORD_BYTES) {
        let kind = kind_that_says(bytes);
        let name = kind.map_or(columns::BYTES, |kind| kind.name);
        if name != before {
            text += &columns::header(name);
            before = name;
        }
        text += &if kind.is_some() { line(name, Record(bytes)) } else { bytes_line(bytes) };
    }
    text
}

/// The kind whose columns say all of these bytes: none if they are no whole record, if the kind is not
/// listed, or if an unused byte is not zero.
fn kind_that_says(bytes: &[u8]) -> Option<&'static Kind> {
    if bytes.len() != RECORD_BYTES || columns::unused_byte(Record(bytes)).is_some() {
        return None;
    }
    columns::kind(bytes[0])
}

fn line(name: &str, record: Record) -> String {
    let cell = |(column, field)| {
        let number = record.get(field);
        columns::word(column, number).map_or_else(|| number.to_string(), str::to_string)
    };
    let cells: Vec<String> = columns::fields(record).into_iter().map(cell).collect();
    format!("{name},{}\n", cells.join(","))
}

fn bytes_line(bytes: &[u8]) -> String {
    let digits: String = bytes.iter().map(|byte| format!("{byte:02x}")).collect();
    format!("{},0x{digits}\n", columns::BYTES)
}
