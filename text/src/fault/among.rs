//! What is wrong with a record among the earlier ones: what it names and no earlier record lists, order
//! and clash, and the limits.

use super::place;
use crate::columns;
use crate::wording::*;
use independent::format::*;

/// The first contract, day or tier that a record names and no earlier record lists.
pub fn unlisted(record: Record, earlier: &[Record]) -> Option<String> {
    let contract = record.get(NUMBER);
    let named: &[Field] = match record.kind() {
        PROMPT | ROW | SPREAD => &[NUMBER],
        ENTRY => &[NUMBER, SECOND_NUMBER],
        _ => &[],
    };
    let lists_contract = |number| {
        earlier.iter().any(|other| other.kind() == CONTRACT && other.get(NUMBER) == number)
    };
    if let Some(field) = named.iter().find(|field| !lists_contract(record.get(**field))) {
        return Some(say(UNLISTED_CONTRACT, &[&place(record, *field), &record.get(*field)]));
    }
    let lists_prompt = |field, number| {
        let of_contract = |other: &Record| other.kind() == PROMPT && other.get(NUMBER) == contract;
        earlier.iter().any(|other| of_contract(other) && other.get(field) == number)
    };
    match record.kind() {
        ROW if !lists_prompt(DAY, record.get(DAY)) => {
            Some(say(UNLISTED_DAY, &[&place(record, DAY), &record.get(DAY), &contract]))
        }
        SPREAD => {
            let tier = (0..legs_in_use(record.get(LEGS)))
                .map(leg_tier)
                .find(|tier| !lists_prompt(PROMPT_TIER, record.get(*tier)))?;
            Some(say(UNLISTED_TIER, &[&place(record, tier), &record.get(tier), &contract]))
        }
        _ => None,
    }
}

pub fn order_or_clash(record: Record, earlier: &[Record]) -> Option<String> {
    let before = earlier.last().filter(|before| before.kind() == record.kind());
    before.and_then(|before| order(record, *before)).or_else(|| clash(record))
}

/// What does not rise, or falls, from the record of its kind before it.
fn order(record: Record, before: Record) -> Option<String> {
    let (contract, contract_before) = (record.get(NUMBER), before.get(NUMBER));
    let number = place(record, NUMBER);
    let same_contract = contract == contract_before;
    match record.kind() {
        CONTRACT if contract <= contract_before => {
            Some(say(NUMBER_NOT_ABOVE, &[&number, &contract, &contract_before]))
        }
        PROMPT | ROW | SPREAD if contract < contract_before => {
            let kind = columns::kind(record.kind())?.name;
            Some(say(CONTRACT_BELOW, &[&number, &contract, &kind, &contract_before]))
        }
        PROMPT if same_contract && record.get(DAY) <= before.get(DAY) => {
            let (day, before) = (record.get(DAY), before.get(DAY));
            Some(say(DAY_NOT_ABOVE, &[&place(record, DAY), &day, &contract, &before]))
        }
        PROMPT if same_contract && record.get(PROMPT_TIER) < before.get(PROMPT_TIER) => {
            let (tier, before) = (record.get(PROMPT_TIER), before.get(PROMPT_TIER));
            Some(say(TIER_BELOW, &[&place(record, PROMPT_TIER), &tier, &contract, &before]))
        }
        CURRENCY_RATE if record.get(RATE_CURRENCY) <= before.get(RATE_CURRENCY) => {
            let (currency, before) = (record.get(RATE_CURRENCY), before.get(RATE_CURRENCY));
            Some(say(CURRENCY_NOT_ABOVE, &[&place(record, RATE_CURRENCY), &currency, &before]))
        }
        _ => None,
    }
}

fn clash(record: Record) -> Option<String> {
    match record.kind() {
        SPREAD => same_legs(record).or_else(|| no_side(record)),
        ENTRY if record.get(NUMBER) == record.get(SECOND_NUMBER) => {
            let (first, second) = (place(record, NUMBER), place(record, SECOND_NUMBER));
            Some(say(WITH_ITSELF, &[&first, &second, &record.get(NUMBER)]))
        }
        _ => None,
    }
}

/// The tier and side of each leg.
fn legs(record: Record) -> Vec<(i64, i64)> {
    let leg = |leg| (record.get(leg_tier(leg)), record.get(leg_side(leg)));
    (0..legs_in_use(record.get(LEGS))).map(leg).collect()
}

fn side_word(side: i64) -> &'static str {
    columns::word("leg 1 side", side).unwrap_or("")
}

fn same_legs(record: Record) -> Option<String> {
    let legs = legs(record);
    let like = |second: usize| legs[..second].iter().position(|leg| *leg == legs[second]);
    let (first, second) = (1..legs.len()).find_map(|second| Some((like(second)?, second)))?;
    let (tier, side) = legs[first];
    Some(say(SAME_LEGS, &[&(first + 1), &(second + 1), &tier, &side_word(side)]))
}

fn no_side(record: Record) -> Option<String> {
    let legs = legs(record);
    let every_leg_has = |side| legs.iter().all(|leg| leg.1 == side);
    let pairs = [(SIDE_A, SIDE_B), (SIDE_B, SIDE_A)];
    let (side, lacking) = pairs.into_iter().find(|(side, _)| every_leg_has(*side))?;
    Some(say(NO_SIDE, &[&side_word(side), &side_word(lacking)]))
}

pub fn over_limit(record: Record, earlier: &[Record]) -> Option<String> {
    let contract = record.get(NUMBER);
    let of_kind = earlier.iter().filter(|other| other.kind() == record.kind());
    let of_contract = of_kind.clone().filter(|other| other.get(NUMBER) == contract).count();
    let most = match record.kind() {
        PROMPT => MOST_PROMPTS,
        ROW => MOST_ROWS,
        SPREAD => MOST_SPREADS,
        ENTRY => {
            return (of_kind.count() >= MOST_ENTRIES)
                .then(|| say(OVER_TABLE_LIMIT, &[&MOST_ENTRIES]))
        }
        _ => return None,
    };
    let kind = columns::kind(record.kind())?.name;
    let number = place(record, NUMBER);
    (of_contract >= most).then(|| say(OVER_CONTRACT_LIMIT, &[&number, &contract, &most, &kind]))
}
