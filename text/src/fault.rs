//! What is wrong with the file or the record that a refusal names, in words: the length and the record
//! by itself here, the record among the earlier ones in `among`, a row with the rates in `converted`.

mod among;
mod converted;

use crate::columns;
use crate::wording::*;
use independent::currency::rates;
use independent::format::*;

/// The fault for which a file is given a refusal of 1 to 9, 14 or 15 that names this record; nothing where
/// the file has no such fault.
pub fn fault(number: usize, record: usize, file: &[u8]) -> Option<String> {
    match number {
        1 => return too_long(file),
        2 => return not_whole(file),
        _ => {}
    }
    let records = records(file);
    let (record, earlier) = (*records.get(record)?, &records[..record]);
    match number {
        3 => unknown_kind(record),
        4 => kind_below(record, earlier),
        5 => unused_byte(record),
        6 => outside(record),
        7 => among::unlisted(record, earlier),
        8 => among::order_or_clash(record, earlier),
        9 => among::over_limit(record, earlier),
        14 => converted::no_rate(record, &rates(&records)),
        15 => converted::beyond(record, &rates(&records)),
        _ => None,
    }
}

/// The records after one that have a fault for which they would be refused like it: each by itself, or each row by its currency.
pub fn others(number: usize, file: &[u8], after: usize) -> Vec<(usize, String)> {
    let records = records(file);
    let rates = rates(&records);
    let later = records.iter().enumerate().skip(after + 1);
    let fault = |record: Record| match number {
        14 | 15 => converted::fault(record, &rates),
        _ => of_its_own(record),
    };
    later.filter_map(|(place, record)| Some((place, fault(*record)?))).collect()
}

/// A record's kind in words.
pub fn kind_in_words(record: Record) -> String {
    match columns::kind(record.kind()) {
        Some(kind) => columns::with_article(kind.name),
        None => "of no kind".to_string(),
    }
}

/// A field's column and where it stands, as in "day (bytes 4-7)".
fn place(record: Record, field: Field) -> String {
    let fields = columns::fields(record);
    let column = fields.iter().find(|(_, other)| *other == field).map_or("", |(column, _)| column);
    if field.bytes == 1 {
        format!("{column} (byte {})", field.at)
    } else {
        format!("{column} (bytes {}-{})", field.at, field.at + field.bytes - 1)
    }
}

fn too_long(file: &[u8]) -> Option<String> {
    (file.len() > MOST_BYTES).then(|| say(LONGER, &[&MOST_BYTES, &MOST_RECORDS]))
}

fn not_whole(file: &[u8]) -> Option<String> {
    let (whole, left) = (file.len() / RECORD_BYTES, file.len() % RECORD_BYTES);
    let (bytes, whole) = (counted(file.len(), "byte"), counted(whole, "record"));
    (left != 0).then(|| say(NOT_WHOLE, &[&bytes, &whole, &counted(left, "byte")]))
}

fn unknown_kind(record: Record) -> Option<String> {
    columns::kind(record.kind()).is_none().then(|| say(NO_SUCH_KIND, &[&record.kind()]))
}

fn kind_below(record: Record, earlier: &[Record]) -> Option<String> {
    let before = *earlier.last()?;
    (record.kind() < before.kind())
        .then(|| say(KIND_FALLS, &[&record.kind(), &kind_in_words(before), &before.kind()]))
}

/// The first unused byte that is not zero.
fn unused_byte(record: Record) -> Option<String> {
    let byte = columns::unused_byte(record)?;
    let legs = record.get(LEGS);
    let kind = match record.kind() {
        SPREAD if legs == 2 => format!("{} of {legs} legs", kind_in_words(record)),
        _ => kind_in_words(record),
    };
    Some(say(UNUSED, &[&byte, &record.0[byte], &kind]))
}

/// The faults of a record by itself: its kind, an unused byte, a field outside its range.
fn of_its_own(record: Record) -> Option<String> {
    unknown_kind(record).or_else(|| unused_byte(record)).or_else(|| outside(record))
}

/// The first field outside its range.
fn outside(record: Record) -> Option<String> {
    let (column, field) = columns::fields(record).into_iter().find(|(_, field)| {
        let number = record.get(*field);
        number < field.least || number > field.most
    })?;
    Some(say(OUTSIDE, &[&place(record, field), &record.get(field), &range(record, column, field)]))
}

/// A field's range, with the words of its numbers, or the class or the tenths that it goes by, and its unit.
pub fn range(record: Record, column: &str, field: Field) -> String {
    let numbers = match (field.least, field.most) {
        (least, most) if least == most => least.to_string(),
        (least, most) => format!("{least}..{most}"),
    };
    let words: Vec<&str> = columns::words(column).iter().map(|(_, word)| *word).collect();
    if !words.is_empty() {
        return format!("{numbers} ({})", words.join(", "));
    }
    let tenths = record.get(TENTHS);
    if tenths == TENTHS.most && entry_ratios(tenths).contains(&field) {
        return format!("{numbers} in tenths");
    }
    let class = record.get(CLASS);
    let by_class = [strike(class), delta(class)].contains(&field);
    let class = columns::word("class", class).filter(|_| by_class);
    let class = class.map_or(String::new(), |word| format!(" for a {word}"));
    let unit = columns::unit(column).map_or(String::new(), |unit| format!(", in {}", unit.name));
    format!("{numbers}{class}{unit}")
}
