//! Which fields of document 02's requests a refused file has outside their range.

use super::sights::Sight;
use independent::format::*;
use independent::refusal::{ORDER_OR_CLASH, OUT_OF_RANGE};
use independent::Refusal;

pub fn refused(file: &[u8], refusal: Refusal) -> Vec<Sight> {
    let record = records(file).get(refusal.record).copied();
    let six = record.filter(|_| refusal.number == OUT_OF_RANGE);
    let entry = six.filter(|record| record.kind() == ENTRY);
    let entry = |seen: fn(Record) -> bool| entry.is_some_and(seen);
    let contract = six.filter(|record| record.kind() == CONTRACT);
    let rate = six.filter(|record| record.kind() == CURRENCY_RATE);
    let rate = |field| rate.is_some_and(|record| outside(record, field));
    let row = six.filter(|record| record.kind() == ROW);
    let falls = refusal.number == ORDER_OR_CLASH
        && record.is_some_and(|record| record.kind() == CURRENCY_RATE);
    vec![
        ("a unit above 1,000", contract.is_some_and(|record| outside(record, UNIT))),
        ("a row's currency above 7", row.is_some_and(|record| outside(record, CURRENCY))),
        ("a rate of currency 0 or above 7", rate(RATE_CURRENCY)),
        ("a spot rate of 0 or above its most", rate(SPOT_RATE)),
        ("an adjustment above 50", rate(ADJUSTMENT)),
        ("a rate of a currency not above the one before", falls),
        ("byte 8 of an entry above 1", entry(|of| of.get(TENTHS) > TENTHS.most)),
        ("a ratio in tenths of 0 or above 1,000", entry(|of| of.get(TENTHS) == 1 && ratio(of))),
        ("a whole ratio that would pass in tenths", entry(passes_in_tenths)),
    ]
}

/// Whether a ratio of an entry is outside its range.
fn ratio(entry: Record) -> bool {
    entry_ratios(entry.get(TENTHS)).iter().any(|field| outside(entry, *field))
}

fn passes_in_tenths(entry: Record) -> bool {
    let [first, second] = entry_ratios(TENTHS.most);
    let fits = !outside(entry, first) && !outside(entry, second);
    entry.get(TENTHS) == 0 && ratio(entry) && fits
}

fn outside(record: Record, field: Field) -> bool {
    let number = record.get(field);
    number < field.least || number > field.most
}
