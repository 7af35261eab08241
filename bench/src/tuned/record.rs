//! Reading a record. Where a field stands and what it may hold is `independent::format`'s.

use independent::format::{loss, Field, RECORD_BYTES, SCENARIOS};

pub type Record = [u8; RECORD_BYTES];

/// The number that stands in a field.
#[inline(always)]
pub fn get(record: &Record, field: Field) -> i64 {
    let byte = |offset: usize| record[field.at + offset];
    match (field.bytes, field.signed) {
        (1, _) => i64::from(byte(0)),
        (2, _) => i64::from(u16::from_le_bytes([byte(0), byte(1)])),
        (_, false) => i64::from(u32::from_le_bytes([byte(0), byte(1), byte(2), byte(3)])),
        (_, true) => i64::from(i32::from_le_bytes([byte(0), byte(1), byte(2), byte(3)])),
    }
}

#[inline(always)]
pub fn outside(record: &Record, field: Field) -> bool {
    let number = get(record, field);
    (number < field.least) | (number > field.most)
}

/// Whether any byte from `FROM` to the record's end is set.
#[inline(always)]
pub fn set_from<const FROM: usize>(record: &Record) -> bool {
    record[FROM..].iter().fold(0, |all, byte| all | byte) != 0
}

/// The sixteen losses of a row, scenario 1 first.
#[inline(always)]
pub fn losses(row: &Record) -> [i32; SCENARIOS] {
    let first = loss(0).at;
    std::array::from_fn(|scenario| {
        let at = first + 4 * scenario;
        i32::from_le_bytes([row[at], row[at + 1], row[at + 2], row[at + 3]])
    })
}
