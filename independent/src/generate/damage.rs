//! Damage to an account: most of it is refused, some of it makes another accepted account.

use super::random::Random;
use super::values::end;
use super::write::{put, record, Bytes};
use crate::format::*;

/// Damages one record, or several, or one record in several ways.
pub fn records(random: &mut Random, records: &mut Vec<Bytes>) {
    if random.one_in(6) {
        return one_of_request(random, records);
    }
    let times = random.pick(&[1, 1, 1, 2, 2, 3]);
    let stay = !random.one_in(3);
    let mut place = some_place(random, records);
    for time in 0..times {
        if time > 0 && !stay {
            place = some_place(random, records);
        }
        place = at(random, records, place);
    }
}

/// Damages one record whose kind has a field that a request of document 02 brought, if there is one.
fn one_of_request(random: &mut Random, records: &mut [Bytes]) {
    let kind = random.pick(&[ENTRY, ROW, CURRENCY_RATE, CONTRACT]);
    let of_kind = of_kind(records, kind);
    if !of_kind.is_empty() {
        let place = random.pick(&of_kind);
        field_of_request(random, &mut records[place]);
    }
}

fn of_kind(records: &[Bytes], kind: u8) -> Vec<usize> {
    (0..records.len()).filter(|place| records[*place][0] == kind).collect()
}

/// Any record, or any of one kind, so that kinds with few records are damaged too.
fn some_place(random: &mut Random, records: &[Bytes]) -> usize {
    let kind = random.between(1, i64::from(CURRENCY_RATE)) as u8;
    let of_kind = of_kind(records, kind);
    if of_kind.is_empty() || random.one_in(2) {
        random.place(records.len().max(1))
    } else {
        random.pick(&of_kind)
    }
}

/// One damage at a record; gives the place of the record damaged.
fn at(random: &mut Random, records: &mut Vec<Bytes>, place: usize) -> usize {
    if place >= records.len() {
        records.push(record(random.between(0, 7) as u8, &[]));
        return records.len() - 1;
    }
    match random.below(24) {
        20..=21 => field_of_request(random, &mut records[place]),
        0 => records[place][0] = random.pick(&[0, 7, 8, 128, 255]),
        1 => records[place][0] = random.between(1, 6) as u8,
        2 | 3 => unused_byte(random, &mut records[place]),
        4..=6 => field_at_its_end(random, &mut records[place]),
        7 => renumber(random, &mut records[place]),
        8 | 9 => misname(random, records, place),
        10 => clash(random, &mut records[place]),
        11 => flip(random, &mut records[place]),
        12 => {
            let other = random.place(records.len());
            records.swap(place, other);
        }
        13 => {
            let next = (place + 1).min(records.len() - 1);
            records.swap(place, next);
            return next;
        }
        14 => return double(random, records, place),
        15 => return drop(records, place),
        16 => return shift(random, records, place),
        17 => return legs(random, records, place),
        _ => return overfill(random, records, place),
    }
    place
}

/// One damage to a row that is not in a file yet.
pub fn row(random: &mut Random, row: &mut Bytes, records: &[Bytes]) {
    match random.below(6) {
        0 | 1 => unused_byte(random, row),
        2 => field_at_its_end(random, row),
        3 => renumber(random, row),
        4 => flip(random, row),
        _ => {
            let mut with_row = records.to_vec();
            with_row.push(*row);
            misname(random, &mut with_row, records.len());
            *row = with_row[records.len()];
        }
    }
}

/// Sets a byte that the record does not use.
fn unused_byte(random: &mut Random, record: &mut Bytes) {
    let fields = Record(record).fields();
    let unused: Vec<usize> = (1..RECORD_BYTES)
        .filter(|byte| {
            !fields.iter().any(|field| (field.at..field.at + field.bytes).contains(byte))
        })
        .collect();
    let edges = [unused[0], unused[unused.len() - 1], random.pick(&unused), random.pick(&unused)];
    record[random.pick(&edges)] = random.between(1, 255) as u8;
}

/// Moves a field to an end of its range, or one past it, or far out.
fn field_at_its_end(random: &mut Random, record: &mut Bytes) {
    let fields = Record(record).fields();
    if fields.is_empty() {
        return;
    }
    let field = random.pick(&fields);
    let number = match random.below(6) {
        0 => field.least - 1,
        1 | 2 => field.most + 1,
        3 => random.word() as i64,
        4 => random.pick(&[i64::from(i32::MIN), i64::from(i32::MAX), -1, 1 << 31]),
        _ => end(random, field),
    };
    put(record, field, number);
}

fn renumber(random: &mut Random, record: &mut Bytes) {
    match record[0] {
        CURRENCY_RATE => put(record, RATE_CURRENCY, random.between(1, 7)),
        ENTRY => put(record, random.pick(&[NUMBER, SECOND_NUMBER]), random.between(0, 15)),
        _ => put(record, NUMBER, random.between(0, 15)),
    }
}

/// Makes a record name another day or tier: near, like it in part, or another contract's.
fn misname(random: &mut Random, records: &mut [Bytes], place: usize) {
    let other = random.pick(records);
    let record = &mut records[place];
    match record[0] {
        PROMPT if random.one_in(2) => put(record, PROMPT_TIER, random.between(1, 8)),
        PROMPT | ROW => {
            let day = Record(record).get(DAY);
            let far = random.pick(&[1, 256, 65_536, 1 << 24, 100, 10_000, 1_000_000, 10_000_000]);
            let new = match random.below(4) {
                0 if other[0] == PROMPT => Record(&other).get(DAY),
                0 | 1 => day + far,
                2 => day - far,
                _ => day % far,
            };
            put(record, DAY, new.clamp(DAY.least, DAY.most));
        }
        SPREAD => {
            let leg = random.place(3);
            put(record, leg_tier(leg), random.between(1, 8));
        }
        _ => renumber(random, record),
    }
}

/// Makes legs or contracts clash.
fn clash(random: &mut Random, record: &mut Bytes) {
    match record[0] {
        SPREAD if random.one_in(2) => {
            let side = random.pick(&[SIDE_A, SIDE_B]);
            for leg in 0..legs_in_use(Record(record).get(LEGS)) {
                put(record, leg_side(leg), side);
            }
        }
        SPREAD => {
            let leg = Record(record).get(leg_tier(0));
            let side = Record(record).get(leg_side(0));
            let onto = random.between(1, 2) as usize;
            put(record, leg_tier(onto), leg);
            put(record, leg_side(onto), side);
        }
        ENTRY => record[SECOND_NUMBER.at] = record[NUMBER.at],
        _ => renumber(random, record),
    }
}

/// Damages a field that a request of document 02 brought; in other records, any field.
fn field_of_request(random: &mut Random, record: &mut Bytes) {
    match record[0] {
        ENTRY => other_parts(random, record),
        ROW => put(record, CURRENCY, random.pick(&[1, 2, 3, 4, 5, 6, 7, 7, 8, 255])),
        CURRENCY_RATE => other_rate(random, record),
        CONTRACT => put(record, UNIT, random.pick(&[0, 1, 2, 256, 1_000, 1_001, 1_001, 65_535])),
        _ => field_at_its_end(random, record),
    }
}

/// Turns an entry's ratios from tenths into whole ones or back, or into what is neither, and may move a
/// ratio about the end of either range.
fn other_parts(random: &mut Random, entry: &mut Bytes) {
    put(entry, TENTHS, random.pick(&[0, 0, 0, 1, 1, 1, 2, 255]));
    if !random.one_in(4) {
        let ratio = random.pick(&[0, 100, 101, 1_000, 1_000, 1_001, 257, 65_535]);
        put(entry, random.pick(&[FIRST_RATIO, SECOND_RATIO]), ratio);
    }
}

/// Damages the legs of a spread, if there is one: their number, or a third leg that is like one of the
/// others or has a field at an end of its range or one past it.
fn legs(random: &mut Random, records: &mut [Bytes], place: usize) -> usize {
    let spreads: Vec<usize> = (0..records.len()).filter(|at| records[*at][0] == SPREAD).collect();
    if spreads.is_empty() {
        return place;
    }
    let place = random.pick(&spreads);
    let record = &mut records[place];
    if random.one_in(3) {
        put(record, LEGS, random.pick(&[0, 1, 1, 4]));
        return place;
    }
    let like = random.place(2);
    put(record, LEGS, 3);
    for field in [leg_tier, leg_side, leg_ratio] {
        let number = Record(record).get(field(like));
        put(record, field(2), number);
    }
    if random.one_in(2) {
        let field = random.pick(&[leg_tier(2), leg_side(2), leg_ratio(2)]);
        let ends = [field.least - 1, field.least, field.most, field.most + 1];
        put(record, field, random.pick(&ends));
    }
    place
}

/// Moves a rate about an end of one of its ranges, or puts it so high that conversions pass their limit.
fn other_rate(random: &mut Random, rate: &mut Bytes) {
    match random.below(8) {
        0 | 1 => put(rate, RATE_CURRENCY, random.pick(&[0, 7, 8, 255])),
        2 => put(rate, SPOT_RATE, random.pick(&[0, 1, 100_000_001, 1 << 31])),
        3..=5 => put(rate, ADJUSTMENT, random.pick(&[0, 50, 51, 51, 100, 255])),
        6 => put(rate, RATE_CURRENCY, random.between(1, 7)),
        _ => put(rate, SPOT_RATE, SPOT_RATE.most),
    }
}

fn flip(random: &mut Random, record: &mut Bytes) {
    for _ in 0..random.between(1, 3) {
        record[random.place(RECORD_BYTES)] ^= 1 << random.below(8);
    }
}

fn double(random: &mut Random, records: &mut Vec<Bytes>, place: usize) -> usize {
    let onto = if random.one_in(3) { random.place(records.len() + 1) } else { place + 1 };
    records.insert(onto, records[place]);
    onto
}

fn drop(records: &mut Vec<Bytes>, place: usize) -> usize {
    records.remove(place);
    place.min(records.len().saturating_sub(1))
}

fn shift(random: &mut Random, records: &mut Vec<Bytes>, place: usize) -> usize {
    let moved = records.remove(place);
    let onto = random.place(records.len() + 1);
    records.insert(onto, moved);
    onto
}

/// Adds records like this one until its contract has one more than the limit of the kind; a few
/// times it stops at the limit, and a few times that one is damaged further or put at the end. The
/// place is that of the last one added.
fn overfill(random: &mut Random, records: &mut Vec<Bytes>, place: usize) -> usize {
    let like = records[place];
    let most = match like[0] {
        PROMPT => MOST_PROMPTS,
        ROW => MOST_ROWS,
        SPREAD => MOST_SPREADS,
        ENTRY => MOST_ENTRIES,
        _ => return place,
    };
    let same = |other: &Bytes| {
        other[0] == like[0] && (like[0] == ENTRY || other[NUMBER.at] == like[NUMBER.at])
    };
    let target = if random.one_in(4) { most } else { most + 1 };
    let mut last = records.iter().rposition(same).unwrap_or(place);
    let mut count = records.iter().filter(|other| same(other)).count();
    while count < target {
        let mut added = records[last];
        if like[0] == PROMPT {
            let day = Record(&added).get(DAY);
            put(&mut added, DAY, (day + 1).min(DAY.most));
        }
        last += 1;
        count += 1;
        records.insert(last, added);
    }
    match random.below(6) {
        0 => misname(random, records, last),
        1 => {
            let moved = records.remove(last);
            records.push(moved);
            last = records.len() - 1;
        }
        _ => {}
    }
    last
}

/// Damages the length of a file: cut, added to, or beyond 61,440 bytes.
pub fn length(random: &mut Random, file: &mut Vec<u8>) {
    match random.below(8) {
        0 | 1 => file.truncate(random.place(file.len() + 1)),
        2 => file.truncate(file.len().saturating_sub(random.place(3))),
        3 | 4 => {
            for _ in 0..random.between(1, 200) {
                file.push(random.word() as u8);
            }
        }
        5 => file.resize(file.len() + random.pick(&[1, 95, 96, 97, 192]), 0),
        6 => file.resize(MOST_BYTES + random.pick(&[1, 95, 96, 97, 192, 9_600]), 0),
        _ => {
            let whole = file.clone();
            while !file.is_empty() && file.len() <= MOST_BYTES {
                file.extend_from_slice(&whole);
            }
        }
    }
}
