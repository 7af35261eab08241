//! Accepted accounts.

use super::charged;
use super::priced;
use super::random::Random;
use super::rates;
use super::values::*;
use super::write::{put, record, Bytes};
use crate::format::*;

/// How many records of each kind an account gets.
struct Plan {
    contracts: Vec<Share>,
    entries: usize,
    rates: usize,
}

/// The most currency rates.
const MOST_RATES: usize = 7;

/// How many records of each kind name one contract.
#[derive(Clone, Copy, Default)]
struct Share {
    prompts: usize,
    rows: usize,
    spreads: usize,
}

/// Every contract number.
const NUMBERS: [i64; 16] = [0, 1, 2, 3, 4, 5, 6, 7, 8, 9, 10, 11, 12, 13, 14, 15];

/// The most records that an account with so many contracts can have, with entries or without.
fn room(contracts: usize, entries: bool) -> usize {
    let entries = if entries && contracts > 1 { MOST_ENTRIES } else { 0 };
    contracts * (1 + MOST_PROMPTS + MOST_ROWS + MOST_SPREADS) + entries
}

/// The records of an account that the paper accepts.
pub fn account(random: &mut Random) -> Vec<Bytes> {
    match random.below(200) {
        0 => return extreme(random),
        1..=22 => return priced::account(random),
        23..=27 => return charged::account(random),
        _ => {}
    }
    let plan = match random.below(200) {
        0 => full(random),
        1 => no_prompts(random),
        2 => sixteen_contracts(random),
        3 => Plan { contracts: vec![], entries: 0, rates: random.place(MOST_RATES + 1) },
        _ => {
            let size = size(random);
            plan(random, size, NUMBERS.len(), true)
        }
    };
    fill(random, &plan, &NUMBERS)
}

/// An account of so many records, or as many as it can have, whose contracts have some of these
/// numbers; with entries and currency rates or without.
pub fn of_size(random: &mut Random, size: usize, numbers: &[i64], entries: bool) -> Vec<Bytes> {
    let size = size.min(room(numbers.len(), entries));
    let plan = plan(random, size, numbers.len(), entries);
    fill(random, &plan, numbers)
}

fn size(random: &mut Random) -> usize {
    match random.below(16) {
        0 | 1 => random.place(MOST_RECORDS + 1),
        2 => random.place(8),
        3..=8 => random.between(8, 40) as usize,
        _ => random.between(20, 110) as usize,
    }
}

/// Rows and rates at their limits: 630 rows in 5 contracts, or fewer with spreads and entries.
fn extreme(random: &mut Random) -> Vec<Bytes> {
    let crowded = |rows| Share { prompts: 1, rows, spreads: 0 };
    let spread = Share { prompts: 2, rows: MOST_ROWS, spreads: 4 };
    let plan = match random.below(4) {
        0 => Plan { contracts: vec![crowded(126); 5], entries: 0, rates: 0 },
        1 => Plan { contracts: vec![crowded(125); 5], entries: 0, rates: 5 },
        _ => {
            let rates = random.pick(&[0, MOST_RATES]);
            Plan { contracts: vec![spread; 4], entries: MOST_ENTRIES, rates }
        }
    };
    let mut records = fill(random, &plan, &NUMBERS);
    let one_sided = random.one_in(2);
    let gain_at_rest = random.one_in(2);
    let thin = random.one_in(3);
    for record in &mut records {
        match record[0] {
            CONTRACT => put(record, SHORT_OPTION_RATE, SHORT_OPTION_RATE.most),
            PROMPT => {
                put(record, RATE_IN_SPREADS, RATE_IN_SPREADS.most);
                put(record, RATE_OUTRIGHT, RATE_OUTRIGHT.most);
            }
            ROW => row_at_limits(random, record, one_sided, gain_at_rest),
            SPREAD => put(record, SPREAD_RATE, SPREAD_RATE.most),
            ENTRY => put(record, PERCENT, PERCENT.most),
            _ => {
                put(record, SPOT_RATE, 1_000_000);
                put(record, ADJUSTMENT, 0);
            }
        }
    }
    if thin {
        make_thin(&mut records);
    }
    records
}

/// Leaves each contract a net delta of 0.0001 or -0.0001, against losses as they are: the largest price
/// risk for one delta.
fn make_thin(records: &mut [Bytes]) {
    let mut last = None;
    for record in records.iter_mut().filter(|record| record[0] == ROW) {
        let first = last != Some(record[NUMBER.at]);
        last = Some(record[NUMBER.at]);
        let class = Record(record).get(CLASS);
        put(record, delta(class), i64::from(first));
        if first {
            put(record, LOTS, Record(record).get(LOTS).signum());
        }
    }
}

/// Moves a row to its limits; one-sided rows of a contract are all long or all short.
fn row_at_limits(random: &mut Random, row: &mut Bytes, one_sided: bool, gain_at_rest: bool) {
    let class = random.pick(&[FORWARD, CALL]);
    let long = if one_sided { row[NUMBER.at].is_multiple_of(2) } else { random.one_in(2) };
    let sign = if long { 1 } else { -1 };
    put(row, CLASS, class);
    put(row, strike(class), strike(class).most);
    put(row, LOTS, sign * LOTS.most);
    put(row, delta(class), delta(class).most);
    put(row, VALUE, VALUE.most);
    for scenario in 0..SCENARIOS {
        let sign = if gain_at_rest && scenario < 2 { -sign } else { sign };
        put(row, loss(scenario), sign * loss(scenario).most);
    }
}

/// An account in which every limit is reached.
fn full(random: &mut Random) -> Plan {
    let share = Share { prompts: MOST_PROMPTS, rows: MOST_ROWS, spreads: MOST_SPREADS };
    let contracts = random.between(2, 3) as usize;
    let rates = random.pick(&[0, MOST_RATES]);
    Plan { contracts: vec![share; contracts], entries: MOST_ENTRIES, rates }
}

/// Contracts with as many rows as they can have, in 640 records or next to so many.
pub fn crammed(random: &mut Random) -> Vec<Bytes> {
    let rows = MOST_ROWS - random.place(2);
    let share = Share { prompts: 3, rows, spreads: 20 };
    let entries = random.between(30, 32) as usize;
    fill(random, &Plan { contracts: vec![share; 4], entries, rates: 0 }, &NUMBERS)
}

/// Contracts without prompts, and entries between them.
fn no_prompts(random: &mut Random) -> Plan {
    let contracts = random.between(2, 16) as usize;
    let entries = random.place(MOST_ENTRIES + 1);
    Plan { contracts: vec![Share::default(); contracts], entries, rates: 0 }
}

/// All sixteen contracts, with a few records each.
fn sixteen_contracts(random: &mut Random) -> Plan {
    let mut share = || {
        let prompts = random.place(4);
        let rows = if prompts > 0 { random.place(8) } else { 0 };
        Share { prompts, rows, spreads: prompts.min(2) }
    };
    let contracts = NUMBERS.iter().map(|_| share()).collect();
    Plan { contracts, entries: random.place(MOST_ENTRIES + 1), rates: random.place(3) }
}

/// A plan with exactly so many records in so many contracts at most; with entries and currency rates
/// or without. Half of the accounts have no rates.
fn plan(random: &mut Random, size: usize, most: usize, entries: bool) -> Plan {
    let least = (0..).find(|contracts| room(*contracts, entries) >= size).unwrap_or(0);
    let least = least.max(usize::from(size > 0));
    let most = size.min(most).max(least);
    let contracts = match random.below(8) {
        0 => random.between(least as i64, most as i64) as usize,
        _ => random.between(least as i64, most.min(least + 3) as i64) as usize,
    };
    let mut left = size - contracts;
    let rates =
        if entries && random.one_in(2) { random.place(MOST_RATES + 1).min(left) } else { 0 };
    left -= rates;
    let mut plan = Plan { contracts: vec![Share::default(); contracts], entries: 0, rates };
    let mut leaning =
        random.pick(&[(3, 8, 3, 2), (6, 8, 6, 1), (1, 12, 1, 1), (4, 6, 8, 4), (3, 6, 1, 6)]);
    if !entries {
        leaning.3 = 0;
    }
    while left > 0 {
        if grow(random, &mut plan, leaning) {
            left -= 1;
        }
    }
    plan
}

/// Adds one record to a plan, if the limits and the lists it must name allow it.
fn grow(random: &mut Random, plan: &mut Plan, leaning: (u64, u64, u64, u64)) -> bool {
    let contracts = plan.contracts.len();
    let share = &mut plan.contracts[random.place(contracts)];
    let (prompts, rows, spreads, entries) = leaning;
    let (count, most, may) = match random.below(prompts + rows + spreads + entries) {
        drawn if drawn < prompts => (&mut share.prompts, MOST_PROMPTS, true),
        drawn if drawn < prompts + rows => {
            let may = share.prompts > 0;
            (&mut share.rows, MOST_ROWS, may)
        }
        drawn if drawn < prompts + rows + spreads => {
            let may = share.prompts > 0;
            (&mut share.spreads, MOST_SPREADS, may)
        }
        _ => (&mut plan.entries, MOST_ENTRIES, contracts > 1),
    };
    let grows = may && *count < most;
    if grows {
        *count += 1;
    }
    grows
}

/// A contract while its records are made.
struct Draft {
    number: i64,
    taste: Taste,
    days: Vec<i64>,
    tiers: Vec<i64>,
    share: Share,
}

fn fill(random: &mut Random, plan: &Plan, numbers: &[i64]) -> Vec<Bytes> {
    let drafts = drafts(random, plan, numbers);
    let mut records = vec![];
    let with_units = random.one_in(2);
    for draft in &drafts {
        let rate = rate(random, draft.taste, SHORT_OPTION_RATE);
        let unit = if with_units { unit(random) } else { 0 };
        let fields = [(NUMBER, draft.number), (SHORT_OPTION_RATE, rate), (UNIT, unit)];
        records.push(record(CONTRACT, &fields));
    }
    for draft in &drafts {
        records.extend(prompts(random, draft));
    }
    let rates = rates::of_account(random, plan.rates);
    for draft in &drafts {
        let mut rows = rows(random, draft);
        rates::put_currencies(random, &mut rows, &rates);
        rates::repair(&mut rows, &rates::listed(&rates));
        records.extend(rows);
    }
    for draft in &drafts {
        records.extend((0..draft.share.spreads).map(|_| spread(random, draft)));
    }
    records.extend(entries(random, &drafts, plan.entries));
    records.extend(rates);
    records
}

fn drafts(random: &mut Random, plan: &Plan, numbers: &[i64]) -> Vec<Draft> {
    let numbers = some(random, numbers, plan.contracts.len());
    let shared_days = days(random, MOST_PROMPTS);
    let of_account = taste(random);
    let one_taste = random.one_in(2);
    let draft = |(number, share): (i64, &Share)| {
        let taste = if one_taste { of_account } else { taste(random) };
        let own_days = random.one_in(3);
        let days = if own_days {
            days(random, share.prompts)
        } else {
            shared_days[..share.prompts].to_vec()
        };
        Draft { number, taste, days, tiers: tiers(random, share.prompts), share: *share }
    };
    numbers.into_iter().zip(&plan.contracts).map(draft).collect()
}

/// So many of these numbers, in their order.
fn some(random: &mut Random, numbers: &[i64], count: usize) -> Vec<i64> {
    let mut numbers = numbers.to_vec();
    while numbers.len() > count {
        let dropped = random.place(numbers.len());
        numbers.remove(dropped);
    }
    numbers
}

/// Tiers that never fall: one for all, or as many as there are, or anything between.
fn tiers(random: &mut Random, count: usize) -> Vec<i64> {
    let most = random.between(1, 8);
    let mut tiers: Vec<i64> = (0..count).map(|_| random.between(1, most)).collect();
    tiers.sort_unstable();
    tiers
}

fn prompts(random: &mut Random, draft: &Draft) -> Vec<Bytes> {
    let mut prompt = |place: usize| {
        let in_spreads = rate(random, draft.taste, RATE_IN_SPREADS);
        let outright = rate(random, draft.taste, RATE_OUTRIGHT);
        record(
            PROMPT,
            &[
                (NUMBER, draft.number),
                (PROMPT_TIER, draft.tiers[place]),
                (DAY, draft.days[place]),
                (RATE_IN_SPREADS, in_spreads),
                (RATE_OUTRIGHT, outright),
            ],
        )
    };
    (0..draft.days.len()).map(&mut prompt).collect()
}

fn rows(random: &mut Random, draft: &Draft) -> Vec<Bytes> {
    let pattern = pattern(random);
    let flat = random.one_in(8);
    let lean = random.below(4);
    let alike = random.one_in(6).then(|| alike(random));
    let mut rows: Vec<Bytes> = vec![];
    for place in 0..draft.share.rows {
        match rows.last() {
            Some(before) if flat && place % 2 == 1 => {
                let mut against = *before;
                put(&mut against, LOTS, -Record(before).get(LOTS));
                put(&mut against, DAY, random.pick(&draft.days));
                rows.push(against);
            }
            _ => rows.push(row(random, draft, pattern, lean)),
        }
        if let (Some(alike), Some(row)) = (alike, rows.last_mut()) {
            make_alike(row, alike);
        }
    }
    rows
}

/// Makes a row a forward with this delta, value and range of losses, whatever its lots.
fn make_alike(row: &mut Bytes, alike: Alike) {
    put(row, CLASS, FORWARD);
    put(row, strike(FORWARD), 0);
    put(row, delta(FORWARD), alike.delta);
    put(row, VALUE, alike.value);
    for (scenario, ticks) in by_price(alike.range).into_iter().enumerate() {
        put(row, loss(scenario), ticks);
    }
}

fn row(random: &mut Random, draft: &Draft, pattern: Pattern, lean: u64) -> Bytes {
    let class = random.pick(&[FORWARD, FORWARD, CALL, PUT]);
    let held = match (lean, lots(random, draft.taste)) {
        (0, lots) => lots.abs(),
        (1, lots) => -lots.abs(),
        (_, lots) => lots,
    };
    let taste = draft.taste;
    let losses = losses(random, taste, pattern, held);
    let mut fields = vec![
        (NUMBER, draft.number),
        (CLASS, class),
        (DAY, random.pick(&draft.days)),
        (strike(class), strike_of(random, class)),
        (LOTS, held),
        (delta(class), delta_of(random, taste, class)),
        (VALUE, value(random, taste)),
    ];
    fields.extend((0..SCENARIOS).map(|scenario| (loss(scenario), losses[scenario])));
    record(ROW, &fields)
}

fn spread(random: &mut Random, draft: &Draft) -> Bytes {
    let legs = legs(random, &draft.tiers);
    let mut fields = vec![
        (NUMBER, draft.number),
        (LEGS, legs.len() as i64),
        (SPREAD_RATE, rate(random, draft.taste, SPREAD_RATE)),
    ];
    for (leg, (tier, side)) in legs.into_iter().enumerate() {
        let ratio = ratio(random);
        fields.extend([(leg_tier(leg), tier), (leg_side(leg), side), (leg_ratio(leg), ratio)]);
    }
    record(SPREAD, &fields)
}

/// Two or three legs that do not clash; three only where the contract has two tiers.
fn legs(random: &mut Random, tiers: &[i64]) -> Vec<(i64, i64)> {
    let wanted = if tiers.first() != tiers.last() && random.one_in(3) { 3 } else { 2 };
    loop {
        let mut legs: Vec<(i64, i64)> = vec![];
        while legs.len() < wanted {
            let leg = (random.pick(tiers), random.pick(&[SIDE_A, SIDE_B]));
            if !legs.contains(&leg) {
                legs.push(leg);
            }
        }
        if legs.iter().any(|(_, side)| *side != legs[0].1) {
            return legs;
        }
    }
}

/// Intercontract entries; some repeat the one before, as it is or turned about.
fn entries(random: &mut Random, drafts: &[Draft], count: usize) -> Vec<Bytes> {
    let mut pair = (0, 0);
    let mut entries = vec![];
    let with_tenths = random.one_in(2);
    for place in 0..count {
        if place > 0 && random.one_in(6) {
            pair = if random.one_in(2) { pair } else { (pair.1, pair.0) };
        } else {
            let first = random.place(drafts.len());
            let second = (first + 1 + random.place(drafts.len() - 1)) % drafts.len();
            pair = (drafts[first].number, drafts[second].number);
        }
        let mut entry =
            record(ENTRY, &[(NUMBER, pair.0), (SECOND_NUMBER, pair.1), (PERCENT, percent(random))]);
        put_ratios(random, &mut entry, with_tenths);
        entries.push(entry);
    }
    entries
}

/// Gives an entry whole ratios or, if they are allowed, now and then ratios in tenths.
pub fn put_ratios(random: &mut Random, entry: &mut Bytes, with_tenths: bool) {
    let in_tenths = with_tenths && random.one_in(2);
    put(entry, TENTHS, i64::from(in_tenths));
    for field in [FIRST_RATIO, SECOND_RATIO] {
        let ratio = if in_tenths { tenths(random) } else { ratio(random) };
        put(entry, field, ratio);
    }
}
