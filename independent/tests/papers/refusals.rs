//! Each refusal, and what is not refused.

use crate::builder::*;

/// An accepted account with records of every kind: contracts 1 and 2, each with prompts of days 10
/// and 20 in tiers 1 and 3, a row, a spread; and an entry.
pub fn sound() -> Vec<Record> {
    vec![
        contract(1, 5),
        contract(2, 5),
        prompt_at(1, 1, 10, 6, 7),
        prompt_at(1, 3, 20, 6, 7),
        prompt_at(2, 1, 10, 6, 7),
        prompt_at(2, 3, 20, 6, 7),
        forward(1, 10, (3, 9_000, 4, &[8; 16])),
        put_option(2, 20, 11, (3, -9_000, 4, &[8; 16])),
        spread(1, 9, &[(1, 'A', 1), (3, 'B', 2)]),
        spread(2, 9, &[(1, 'A', 1), (3, 'B', 2), (3, 'A', 4)]),
        entry(50, (1, 1), (2, 3)),
    ]
}

pub const CONTRACT: usize = 1;
pub const PROMPT: usize = 5;
pub const FORWARD: usize = 6;
pub const PUT: usize = 7;
pub const TWO_LEGS: usize = 8;
pub const THREE_LEGS: usize = 9;
pub const ENTRY: usize = 10;

/// The refusal of the sound account with one record changed.
fn changed(place: usize, change: impl Fn(&mut Record)) -> Option<(u8, usize)> {
    let mut records = sound();
    change(&mut records[place]);
    refused(&file(&[&records]))
}

/// The refusal of the sound account with a number put into some bytes of a record.
fn field(place: usize, at: usize, bytes: usize, number: i64) -> Option<(u8, usize)> {
    changed(place, |record| {
        record[at..at + bytes].copy_from_slice(&number.to_le_bytes()[..bytes]);
    })
}

#[test]
fn the_sound_account_is_accepted() {
    assert_eq!(refused(&file(&[&sound()])), None);
}

#[test]
fn refusal_1_is_for_more_than_640_records() {
    assert_eq!(refused(&[0; 61_440]), Some((3, 0)));
    assert_eq!(refused(&[0; 61_441]), Some((1, 0)));
    assert_eq!(refused(&[0; 61_440 + 96]), Some((1, 0)));
}

#[test]
fn refusal_2_is_for_lengths_that_are_no_multiple_of_96() {
    for length in [1, 95, 97, 191, 61_439] {
        assert_eq!(refused(&vec![0; length]), Some((2, 0)));
    }
}

#[test]
fn refusal_3_is_for_kinds_other_than_1_to_6() {
    for kind in [0, 7, 8, 129, 255] {
        assert_eq!(changed(ENTRY, |record| record[0] = kind), Some((3, ENTRY)));
    }
}

#[test]
fn refusal_4_is_for_a_kind_below_the_kind_before() {
    for place in 2..=ENTRY {
        let mut records = sound();
        records.insert(place, contract(3, 0));
        let expected = if place == 2 { None } else { Some((4, place)) };
        assert_eq!(refused(&file(&[&records])), expected);
    }
}

#[test]
fn refusal_5_is_for_every_unused_byte_of_every_kind() {
    let used: [(usize, &[std::ops::RangeInclusive<usize>]); 6] = [
        (CONTRACT, &[0..=1, 4..=9]),
        (PROMPT, &[0..=2, 4..=15]),
        (FORWARD, &[0..=87]),
        (TWO_LEGS, &[0..=2, 4..=15]),
        (THREE_LEGS, &[0..=2, 4..=19]),
        (ENTRY, &[0..=8]),
    ];
    for (place, used) in used {
        for byte in 0..96 {
            if used.iter().any(|bytes| bytes.contains(&byte)) {
                let number = changed(place, |record| record[byte] ^= 128).map(|refusal| refusal.0);
                assert_ne!(number, Some(5), "record {place}, byte {byte}");
            } else {
                for set in [1, 255] {
                    let refusal = changed(place, |record| record[byte] = set);
                    assert_eq!(refusal, Some((5, place)), "record {place}, byte {byte}");
                }
            }
        }
    }
}

#[test]
fn the_third_leg_is_unused_only_when_byte_2_holds_2() {
    let third_leg = |legs, tier| {
        changed(TWO_LEGS, |record| {
            record[2] = legs;
            record[16..20].copy_from_slice(&[tier, 1, 1, 0]);
        })
    };
    assert_eq!(third_leg(2, 3), Some((5, TWO_LEGS)));
    assert_eq!(third_leg(3, 3), None);
    for legs in [0, 1, 4, 255] {
        assert_eq!(third_leg(legs, 3), Some((6, TWO_LEGS)));
    }
    // A third leg of zeros is in range nowhere.
    assert_eq!(changed(TWO_LEGS, |record| record[2] = 3), Some((6, TWO_LEGS)));
}

#[test]
fn refusal_6_is_for_one_past_each_end_of_each_field() {
    // Record, first byte, bytes, least, most; one below 0 is the largest number of an unsigned field.
    let fields = [
        (CONTRACT, 1, 1, 0, 15),
        (CONTRACT, 4, 4, 0, 10_000_000),
        (CONTRACT, 8, 2, 0, 1_000),
        (PROMPT, 1, 1, 0, 15),
        (PROMPT, 2, 1, 1, 8),
        (PROMPT, 4, 4, 1, 99_999_999),
        (PROMPT, 8, 4, 0, 10_000_000),
        (PROMPT, 12, 4, 0, 10_000_000),
        (FORWARD, 1, 1, 0, 15),
        (FORWARD, 3, 1, 0, 7),
        (FORWARD, 4, 4, 1, 99_999_999),
        (FORWARD, 8, 4, 0, 0),
        (FORWARD, 12, 4, -100_000, 100_000),
        (FORWARD, 16, 4, 0, 10_000),
        (FORWARD, 20, 4, 1, 10_000),
        (FORWARD, 24, 4, -100_000, 100_000),
        (FORWARD, 84, 4, -100_000, 100_000),
        (PUT, 16, 4, -10_000, 0),
        (THREE_LEGS, 1, 1, 0, 15),
        (THREE_LEGS, 4, 4, 0, 10_000_000),
        (THREE_LEGS, 8, 1, 1, 8),
        (THREE_LEGS, 9, 1, 1, 2),
        (THREE_LEGS, 10, 2, 1, 100),
        (THREE_LEGS, 12, 1, 1, 8),
        (THREE_LEGS, 13, 1, 1, 2),
        (THREE_LEGS, 14, 2, 1, 100),
        (THREE_LEGS, 16, 1, 1, 8),
        (THREE_LEGS, 17, 1, 1, 2),
        (THREE_LEGS, 18, 2, 1, 100),
        (ENTRY, 1, 1, 0, 15),
        (ENTRY, 2, 1, 0, 15),
        (ENTRY, 3, 1, 0, 100),
        (ENTRY, 4, 2, 1, 100),
        (ENTRY, 6, 2, 1, 100),
        (ENTRY, 8, 1, 0, 1),
    ];
    for (place, at, bytes, least, most) in fields {
        for past in [least - 1, most + 1] {
            assert_eq!(
                field(place, at, bytes, past),
                Some((6, place)),
                "record {place}, byte {at}: {past}"
            );
        }
        for end in [least, most] {
            let number = field(place, at, bytes, end).map(|refusal| refusal.0);
            assert_ne!(number, Some(6), "record {place}, byte {at}: {end}");
        }
    }
}

#[test]
fn every_loss_has_its_range() {
    for scenario in 0..16 {
        assert_eq!(field(FORWARD, 24 + 4 * scenario, 4, 100_000), None);
        assert_eq!(field(FORWARD, 24 + 4 * scenario, 4, -100_000), None);
        assert_eq!(field(FORWARD, 24 + 4 * scenario, 4, 100_001), Some((6, FORWARD)));
        assert_eq!(field(FORWARD, 24 + 4 * scenario, 4, -100_001), Some((6, FORWARD)));
    }
}

#[test]
fn a_class_is_0_1_or_2_and_decides_the_ranges_of_strike_and_delta() {
    let row = |class, strike: u32, delta: i32| {
        changed(FORWARD, |record| {
            record[2] = class;
            record[8..12].copy_from_slice(&strike.to_le_bytes());
            record[16..20].copy_from_slice(&delta.to_le_bytes());
        })
    };
    let six = Some((6, FORWARD));
    assert_eq!(row(0, 0, 1), None);
    assert_eq!(row(0, 1, 1), six);
    assert_eq!(row(0, 0, -1), six);
    assert_eq!(row(1, 0, 1), six);
    assert_eq!(row(1, 1, 1), None);
    assert_eq!(row(1, 1, -1), six);
    assert_eq!(row(2, 0, -1), six);
    assert_eq!(row(2, 1, -1), None);
    assert_eq!(row(2, 1, 1), six);
    assert_eq!(row(2, 1, -10_001), six);
    assert_eq!(row(3, 1, 0), six);
    assert_eq!(row(1, 4_294_967_295, 10_000), None);
    assert_eq!(row(2, 2_147_483_648, -10_000), None);
}

#[test]
fn unsigned_fields_have_no_negative_numbers() {
    // Bytes of -1 are 4,294,967,295, which is past every rate, day and value.
    for (place, at) in [(CONTRACT, 4), (PROMPT, 4), (PROMPT, 8), (FORWARD, 20), (TWO_LEGS, 4)] {
        assert_eq!(field(place, at, 4, -1), Some((6, place)));
    }
    // The high byte of a ratio counts: 257 is no 1.
    assert_eq!(field(ENTRY, 4, 2, 257), Some((6, ENTRY)));
    assert_eq!(field(TWO_LEGS, 10, 2, 256), Some((6, TWO_LEGS)));
}

#[test]
fn lots_of_0_are_allowed_and_add_nothing() {
    assert_eq!(field(FORWARD, 12, 4, 0), None);
    let mut records = sound();
    records[FORWARD] = forward(1, 10, (0, 9_000, 4, &[8; 16]));
    assert_eq!(book_of(&file(&[&records]), 1)[..3], [0, 0, 0]);
    assert_eq!(figures_of(&file(&[&records]))[2], 0);
}

#[test]
fn rows_of_0_lots_are_checked_and_counted_like_others() {
    let rows = |count| {
        let rows = vec![forward(1, 10, (0, 0, 1, &NO_LOSS)); count];
        refused(&file(&[&[contract(1, 0), prompt(1, 1, 10)], &rows]))
    };
    assert_eq!(rows(128), None);
    assert_eq!(rows(129), Some((9, 2 + 128)));
    let unlisted = forward(1, 11, (0, 0, 1, &NO_LOSS));
    let account = file(&[&[contract(1, 0), prompt(1, 1, 10), unlisted]]);
    assert_eq!(refused(&account), Some((7, 2)));
}

#[test]
fn refusal_7_is_for_a_contract_that_no_earlier_record_lists() {
    for place in [PROMPT, PUT, THREE_LEGS, ENTRY] {
        assert_eq!(changed(place, |record| record[1] = 3), Some((7, place)));
    }
    assert_eq!(changed(ENTRY, |record| record[2] = 3), Some((7, ENTRY)));
}

#[test]
fn refusal_7_is_for_a_day_that_is_no_prompt_of_the_rows_contract() {
    assert_eq!(field(FORWARD, 4, 4, 11), Some((7, FORWARD)));
    // Day 30 is a prompt of contract 2 alone.
    let mut records = sound();
    records[PROMPT] = prompt(2, 3, 30);
    records[PUT] = forward(2, 30, (1, 1, 1, &NO_LOSS));
    assert_eq!(refused(&file(&[&records])), None);
    records[FORWARD] = forward(1, 30, (1, 1, 1, &NO_LOSS));
    assert_eq!(refused(&file(&[&records])), Some((7, FORWARD)));
}

#[test]
fn refusal_7_is_for_a_tier_without_a_prompt_of_the_spreads_contract() {
    for (place, at) in [(TWO_LEGS, 8), (TWO_LEGS, 12), (THREE_LEGS, 8), (THREE_LEGS, 16)] {
        assert_eq!(field(place, at, 1, 2), Some((7, place)));
    }
    // Tier 4 has a prompt in contract 2 alone.
    let mut records = sound();
    records[PROMPT] = prompt(2, 4, 20);
    records[THREE_LEGS] = pair(2, 0, 1, 4);
    assert_eq!(refused(&file(&[&records])), None);
    records[TWO_LEGS] = pair(1, 0, 1, 4);
    assert_eq!(refused(&file(&[&records])), Some((7, TWO_LEGS)));
}

#[test]
fn a_prompt_lists_its_own_day_and_tier_and_a_contract_its_own_number() {
    assert_eq!(refused(&file(&[&[contract(0, 0), prompt(0, 8, 99_999_999)]])), None);
}

#[test]
fn refusal_8_is_for_contract_numbers_that_do_not_rise() {
    for (first, second, refusal) in [(1, 2, None), (2, 2, Some((8, 1))), (2, 1, Some((8, 1)))] {
        assert_eq!(refused(&file(&[&[contract(first, 0), contract(second, 0)]])), refusal);
    }
}

#[test]
fn refusal_8_is_for_prompts_that_do_not_rise() {
    let prompts =
        |first, second| refused(&file(&[&[contract(1, 0), contract(2, 0), first, second]]));
    assert_eq!(prompts(prompt(1, 1, 10), prompt(1, 1, 11)), None);
    assert_eq!(prompts(prompt(1, 1, 10), prompt(1, 1, 10)), Some((8, 3)));
    assert_eq!(prompts(prompt(1, 1, 10), prompt(1, 2, 9)), Some((8, 3)));
    assert_eq!(prompts(prompt(1, 5, 10), prompt(2, 1, 3)), None);
    assert_eq!(prompts(prompt(2, 1, 10), prompt(1, 1, 11)), Some((8, 3)));
    // A day is above another as a number, not byte by byte from the front.
    assert_eq!(prompts(prompt(1, 1, 255), prompt(1, 1, 256)), None);
    assert_eq!(prompts(prompt(1, 1, 256), prompt(1, 1, 255)), Some((8, 3)));
}

#[test]
fn refusal_8_is_for_a_tier_below_that_of_the_prompt_before() {
    let tiers = |first, second| {
        refused(&file(&[&[contract(1, 0), prompt(1, first, 10), prompt(1, second, 11)]]))
    };
    assert_eq!(tiers(2, 2), None);
    assert_eq!(tiers(2, 8), None);
    assert_eq!(tiers(2, 1), Some((8, 2)));
}

#[test]
fn refusal_8_is_for_rows_and_spreads_of_a_contract_below_the_one_before() {
    let mut records = sound();
    records.swap(FORWARD, PUT);
    assert_eq!(refused(&file(&[&records])), Some((8, PUT)));
    let mut records = sound();
    records.swap(TWO_LEGS, THREE_LEGS);
    assert_eq!(refused(&file(&[&records])), Some((8, THREE_LEGS)));
}

#[test]
fn rows_spreads_and_entries_may_repeat() {
    for place in [FORWARD, PUT, TWO_LEGS, THREE_LEGS, ENTRY] {
        let mut records = sound();
        records.insert(place, records[place]);
        assert_eq!(refused(&file(&[&records])), None);
    }
}

#[test]
fn refusal_8_is_for_legs_that_clash() {
    let legs = |legs: &[(u8, char, u16)]| {
        let mut records = sound();
        records[THREE_LEGS] = spread(2, 0, legs);
        refused(&file(&[&records]))
    };
    let clash = Some((8, THREE_LEGS));
    assert_eq!(legs(&[(1, 'A', 1), (1, 'B', 1)]), None);
    assert_eq!(legs(&[(1, 'B', 1), (3, 'A', 1)]), None);
    assert_eq!(legs(&[(1, 'A', 1), (1, 'A', 2)]), clash);
    assert_eq!(legs(&[(1, 'A', 1), (3, 'A', 1)]), clash);
    assert_eq!(legs(&[(1, 'B', 1), (3, 'B', 1)]), clash);
    assert_eq!(legs(&[(1, 'A', 1), (3, 'B', 1), (1, 'B', 1)]), None);
    assert_eq!(legs(&[(1, 'A', 1), (3, 'B', 1), (1, 'A', 2)]), clash);
    assert_eq!(legs(&[(1, 'A', 1), (3, 'B', 1), (3, 'B', 2)]), clash);
    assert_eq!(legs(&[(1, 'B', 1), (1, 'B', 1), (3, 'A', 2)]), clash);
}

#[test]
fn refusal_8_is_for_an_entry_of_a_contract_with_itself() {
    assert_eq!(changed(ENTRY, |record| record[2] = 1), Some((8, ENTRY)));
    assert_eq!(changed(ENTRY, |record| record[1..3].copy_from_slice(&[2, 1])), None);
}

#[test]
fn refusal_9_is_for_the_33rd_prompt_spread_and_entry() {
    let prompts: Vec<Record> = (1..=33).map(|day| prompt(1, 1, day)).collect();
    let contracts = [contract(1, 0), contract(2, 0)];
    let with_prompts = |count: usize| refused(&file(&[&contracts, &prompts[..count]]));
    assert_eq!(with_prompts(32), None);
    assert_eq!(with_prompts(33), Some((9, 2 + 32)));

    let with_spreads =
        |count| refused(&file(&[&contracts, &prompts[..1], &vec![pair(1, 0, 1, 1); count]]));
    assert_eq!(with_spreads(32), None);
    assert_eq!(with_spreads(33), Some((9, 3 + 32)));

    let with_entries =
        |count| refused(&file(&[&contracts, &vec![entry(1, (1, 1), (2, 1)); count]]));
    assert_eq!(with_entries(32), None);
    assert_eq!(with_entries(33), Some((9, 2 + 32)));
}

#[test]
fn the_limits_are_per_contract_and_those_of_entries_for_all() {
    let prompts = |number| (1..=32).map(|day| prompt(number, 1, day)).collect::<Vec<Record>>();
    let rows = |number| vec![forward(number, 1, (1, 1, 1, &NO_LOSS)); 128];
    let spreads = |number| vec![pair(number, 0, 1, 1); 32];
    let contracts = [contract(1, 0), contract(2, 0), contract(3, 0)];
    let account = file(&[
        &contracts,
        &prompts(1),
        &prompts(2),
        &rows(1),
        &rows(2),
        &spreads(1),
        &spreads(2),
        &vec![entry(1, (1, 1), (2, 1)); 32],
    ]);
    assert_eq!(refused(&account), None);
    let one_more = file(&[
        &contracts,
        &vec![entry(1, (1, 1), (2, 1)); 16],
        &vec![entry(1, (2, 1), (3, 1)); 16],
        &[entry(1, (3, 1), (1, 1))],
    ]);
    assert_eq!(refused(&one_more), Some((9, 3 + 32)));
}
