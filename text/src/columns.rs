//! The kinds of record in the text form: their names, the names of their columns in the order of the
//! record's fields, a row's currency last, and the words that stand for numbers. Offsets and ranges are
//! `independent::format`'s.

use independent::format::*;

/// The name of a line that gives bytes as they stand, and of its column.
pub const BYTES: &str = "bytes";
pub const HEX: &str = "hex";

pub struct Kind {
    pub kind: u8,
    pub name: &'static str,
    pub columns: &'static [&'static str],
}

pub const KINDS: [Kind; 6] = [
    Kind { kind: CONTRACT, name: "contract", columns: &["number", "short option rate", "unit"] },
    Kind {
        kind: PROMPT,
        name: "prompt",
        columns: &[
            "contract",
            "tier",
            "day",
            "rate per delta in spreads",
            "rate per outright delta",
        ],
    },
    Kind {
        kind: ROW,
        name: "row",
        columns: &[
            "contract", "class", "day", "strike", "lots", "delta", "value", "loss 1", "loss 2",
            "loss 3", "loss 4", "loss 5", "loss 6", "loss 7", "loss 8", "loss 9", "loss 10",
            "loss 11", "loss 12", "loss 13", "loss 14", "loss 15", "loss 16", "currency",
        ],
    },
    Kind {
        kind: SPREAD,
        name: "interprompt spread",
        columns: &[
            "contract",
            "legs",
            "rate per spread",
            "leg 1 tier",
            "leg 1 side",
            "leg 1 ratio",
            "leg 2 tier",
            "leg 2 side",
            "leg 2 ratio",
            "leg 3 tier",
            "leg 3 side",
            "leg 3 ratio",
        ],
    },
    Kind {
        kind: ENTRY,
        name: "intercontract spread",
        columns: &[
            "first contract",
            "second contract",
            "credit percent",
            "first ratio",
            "second ratio",
            "ratios",
        ],
    },
    Kind {
        kind: CURRENCY_RATE,
        name: "currency rate",
        columns: &["currency", "spot rate", "adjustment percent"],
    },
];

const CLASSES: &[(i64, &str)] = &[(FORWARD, "forward"), (CALL, "call"), (PUT, "put")];
const SIDES: &[(i64, &str)] = &[(SIDE_A, "A"), (SIDE_B, "B")];
const RATIOS: &[(i64, &str)] = &[(TENTHS.least, "whole"), (TENTHS.most, "tenths")];

pub fn kind(number: u8) -> Option<&'static Kind> {
    KINDS.iter().find(|kind| kind.kind == number)
}

/// The words of a column, each with the number that it stands for; none for a column of numbers.
pub fn words(column: &str) -> &'static [(i64, &'static str)] {
    match column {
        "class" => CLASSES,
        "leg 1 side" | "leg 2 side" | "leg 3 side" => SIDES,
        "ratios" => RATIOS,
        _ => &[],
    }
}

/// What the whole numbers of a column count: a name, and how many decimal places the thing counted has.
pub struct Unit {
    pub name: &'static str,
    pub places: usize,
}

/// The unit of a column; none for a column that counts nothing.
pub fn unit(column: &str) -> Option<Unit> {
    let (name, places) = match column {
        "short option rate"
        | "unit"
        | "rate per delta in spreads"
        | "rate per outright delta"
        | "value"
        | "rate per spread" => ("hundredths", 2),
        "delta" => ("ten-thousandths", 4),
        "spot rate" => ("millionths", 6),
        "lots" => ("lots", 0),
        "credit percent" | "adjustment percent" => ("percent", 0),
        _ if column.starts_with("loss") => ("ticks", 0),
        _ => return None,
    };
    Some(Unit { name, places })
}

/// What a cell that is left out at the end of a line stands for, where a field may be left out: a contract whose unit is not
/// said has hundredths, and a row whose currency is not said is in the margin currency.
pub fn left_out(field: Field) -> Option<i64> {
    [UNIT, CURRENCY].contains(&field).then_some(field.least)
}

/// A thing with its article, as in "a row".
pub fn with_article(name: &str) -> String {
    let article = if name.starts_with(['a', 'e', 'i', 'o', 'u']) { "an" } else { "a" };
    format!("{article} {name}")
}

/// The word that stands for a number in a column.
pub fn word(column: &str, number: i64) -> Option<&'static str> {
    words(column).iter().find(|(named, _)| *named == number).map(|(_, word)| *word)
}

/// The fields of a record with their columns; none for a kind that is not listed.
pub fn fields(record: Record) -> Vec<(&'static str, Field)> {
    let columns = kind(record.kind()).map_or(&[][..], |kind| kind.columns);
    let (last, mut fields): (Vec<Field>, Vec<Field>) =
        record.fields().into_iter().partition(|field| *field == CURRENCY);
    fields.extend(last);
    columns.iter().copied().zip(fields).collect()
}

/// The first unused byte of a record that is not zero.
pub fn unused_byte(record: Record) -> Option<usize> {
    let fields = record.fields();
    let used =
        |byte: usize| fields.iter().any(|field| (field.at..field.at + field.bytes).contains(&byte));
    (1..RECORD_BYTES).find(|&byte| record.0[byte] != 0 && !used(byte))
}

/// The line of a kind's columns, a comment of the text form.
pub fn header(name: &str) -> String {
    let columns =
        KINDS.iter().find(|kind| kind.name == name).map_or(&[HEX][..], |kind| kind.columns);
    format!("# {name},{}\n", columns.join(","))
}

#[cfg(test)]
mod tests {
    use super::*;

    #[test]
    fn every_field_has_a_column_in_the_order_of_the_bytes_but_for_the_currency_of_a_row() {
        for kind in &KINDS {
            let mut record = [0; RECORD_BYTES];
            record[0] = kind.kind;
            assert_eq!(Record(&record).fields().len(), kind.columns.len(), "{}", kind.name);
            let mut fields = fields(Record(&record));
            if kind.kind == ROW {
                assert_eq!(fields.pop(), Some(("currency", CURRENCY)));
            }
            assert!(fields.is_sorted_by_key(|(_, field)| field.at), "{}", kind.name);
        }
    }

    #[test]
    fn a_spread_of_two_legs_has_no_third() {
        let mut record = [0; RECORD_BYTES];
        record[0] = SPREAD;
        record[LEGS.at] = 2;
        assert_eq!(fields(Record(&record)).last().map(|(name, _)| *name), Some("leg 2 ratio"));
    }
}
