//! Writing the bytes of a record.

use crate::format::*;

pub type Bytes = [u8; RECORD_BYTES];

/// Puts a number into a field, cut to the field's bytes.
pub fn put(record: &mut Bytes, field: Field, number: i64) {
    record[field.at..field.at + field.bytes].copy_from_slice(&number.to_le_bytes()[..field.bytes]);
}

/// A record of this kind with these fields.
pub fn record(kind: u8, fields: &[(Field, i64)]) -> Bytes {
    let mut record = [0; RECORD_BYTES];
    record[0] = kind;
    for (field, number) in fields {
        put(&mut record, *field, *number);
    }
    record
}
