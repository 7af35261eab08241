//! What was probably meant by a cell that cannot be read.

use crate::columns::{self, KINDS};
use independent::format::Field;

/// Names of lines that people write in place of a kind's.
const LIKE_KINDS: [(&str, &str); 7] = [
    ("spread", "interprompt spread"),
    ("interprompt", "interprompt spread"),
    ("entry", "intercontract spread"),
    ("intercontract", "intercontract spread"),
    ("position", "row"),
    ("rate", "currency rate"),
    ("currency", "currency rate"),
];

/// A currency is often written by its letters.
const CURRENCY_NUMBER: &str =
    "a currency is a number: 0 is the margin currency, each other has its line 'currency rate'";

/// The decimal places of a ratio in tenths.
const TENTHS: usize = 1;

/// For the name of a line.
pub fn kind(cell: &str) -> Option<String> {
    for (separator, name) in [(';', "semicolons"), ('\t', "tabs")] {
        if cell.contains(separator) {
            return Some(format!("columns are separated by commas, and this line has {name}"));
        }
    }
    let small = cell.to_lowercase();
    let single = small.strip_suffix('s').unwrap_or(&small);
    let named = KINDS.iter().find(|kind| kind.name == small || kind.name == single);
    let like = LIKE_KINDS.iter().find(|(like, _)| *like == single).map(|(_, name)| *name);
    named.map(|kind| kind.name).or(like).map(|name| format!("'{name}' was probably meant"))
}

/// For a cell of a column.
pub fn cell(column: &str, field: Field, cell: &str) -> Option<String> {
    let written = |text: &str| format!("'{text}' was probably meant");
    if cell.eq_ignore_ascii_case(column) {
        return Some("a line with the names of the columns begins with #".to_string());
    }
    let words = columns::words(column);
    if !words.is_empty() {
        return word(words, cell).map(written);
    }
    if column == "day" {
        return day(cell).as_deref().map(written);
    }
    if column == "currency" && !cell.is_empty() && cell.chars().all(char::is_alphabetic) {
        return Some(CURRENCY_NUMBER.to_string());
    }
    if cell.contains(['e', 'E']) && cell.parse::<f64>().is_ok() {
        return Some("a spreadsheet has shortened this number".to_string());
    }
    let plain: String =
        cell.chars().filter(|mark| !matches!(mark, ',' | '_' | '\'' | ' ')).collect();
    if plain != cell && plain.parse::<i64>().is_ok() {
        return Some(format!("{}, with no mark between the digits", written(&plain)));
    }
    if columns::left_out(field).is_some() && one_more(cell).is_some() {
        return one_more(cell);
    }
    let unit = columns::unit(column);
    match units(&plain, unit.as_ref().map_or(0, |unit| unit.places)) {
        None if matches!(column, "first ratio" | "second ratio") => {
            units(&plain, TENTHS).map(|units| format!("{plain} is {units} in tenths"))
        }
        units => units.map(|units| match unit {
            Some(unit) if unit.places > 0 => format!("{plain} is {units} in {}", unit.name),
            _ => written(&units),
        }),
    }
}

/// For a cell after the last column: three digits are the rest of a number that had a comma.
pub fn one_more(cell: &str) -> Option<String> {
    let digits = cell.len() == 3 && cell.bytes().all(|digit| digit.is_ascii_digit());
    digits.then(|| "numbers are written without commas".to_string())
}

/// The word that a cell is like: in other letters, by its first letter, or as its number.
fn word(words: &[(i64, &'static str)], cell: &str) -> Option<&'static str> {
    let like = |(number, word): &&(i64, &'static str)| {
        let first = word.get(..1).is_some_and(|first| first.eq_ignore_ascii_case(cell));
        word.eq_ignore_ascii_case(cell) || first || number.to_string() == cell
    };
    words.iter().find(like).map(|(_, word)| *word)
}

/// A date of year, month and day, as one number.
fn day(cell: &str) -> Option<String> {
    let parts: Vec<&str> = cell.split(['-', '/', '.']).collect();
    let digits = |part: &&str, most: usize| {
        (1..=most).contains(&part.len()) && part.bytes().all(|digit| digit.is_ascii_digit())
    };
    match parts[..] {
        [year, month, day] if year.len() == 4 && digits(&year, 4) => {
            let valid = digits(&month, 2) && digits(&day, 2);
            valid.then(|| format!("{year}{month:0>2}{day:0>2}"))
        }
        _ => None,
    }
}

/// A number with decimals, in a unit with so many places.
fn units(cell: &str, places: usize) -> Option<String> {
    let (whole, decimals) = cell.split_once('.')?;
    let decimals = decimals.trim_end_matches('0');
    if decimals.len() > places || !decimals.bytes().all(|digit| digit.is_ascii_digit()) {
        return None;
    }
    let number: i64 = format!("{whole}{decimals:0<places$}").parse().ok()?;
    Some(number.to_string())
}
