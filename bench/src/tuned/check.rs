//! The check: one walk over the records, with notes of those passed in place of looking back.

use super::rates::Rates;
use super::record::{get, losses, outside, set_from, Record};
use independent::currency::MOST_CONVERTED;
use independent::format::*;
use independent::refusal::*;
use independent::Refusal;

pub const CONTRACTS: usize = 16;

/// Where the records of one kind and contract begin, and how many there are.
#[derive(Clone, Copy, Default)]
pub struct Part {
    first: u16,
    count: u16,
}

impl Part {
    pub fn range(self) -> std::ops::Range<usize> {
        let first = usize::from(self.first);
        first..first + usize::from(self.count)
    }

    pub fn count(self) -> usize {
        usize::from(self.count)
    }

    fn add(&mut self, place: usize, most: usize) -> Result<(), u8> {
        if self.count() >= most {
            return Err(OVER_LIMIT);
        }
        if self.count == 0 {
            self.first = place as u16;
        }
        self.count += 1;
        Ok(())
    }
}

/// What is noted of the records passed.
#[derive(Default)]
pub struct Notes {
    /// A bit for each contract number listed.
    listed: u32,
    /// By contract number, a bit for each tier with a prompt.
    tiers: [u16; CONTRACTS],
    pub prompts: [Part; CONTRACTS],
    pub rows: [Part; CONTRACTS],
    pub spreads: [Part; CONTRACTS],
    pub entries: Part,
    /// A bit for each currency that a row names.
    currencies: u16,
    pub rates: Rates,
}

impl Notes {
    pub fn lists(&self, contract: usize) -> bool {
        contract < CONTRACTS && self.listed >> contract & 1 == 1
    }

    /// A bit for each contract number listed.
    pub fn listed(&self) -> u32 {
        self.listed
    }

    /// Whether some row is in another currency.
    pub fn converts(&self) -> bool {
        self.currencies > 1
    }

    /// The place of a listed contract in file order.
    pub fn place(&self, contract: usize) -> usize {
        place_in(self.listed, contract)
    }

    /// How many records of kinds 1 to 4 a listed contract has.
    pub fn records_of(&self, contract: usize) -> usize {
        1 + [self.prompts, self.rows, self.spreads]
            .map(|parts| parts[contract].count())
            .iter()
            .sum::<usize>()
    }
}

/// The place of a contract among those of which a bit is set.
#[inline(always)]
pub fn place_in(listed: u32, contract: usize) -> usize {
    (listed & ((1 << contract) - 1)).count_ones() as usize
}

/// Keeps the place of each row's prompt among the prompts of its contract.
pub trait Places {
    fn keep(&mut self, row: usize, prompt: usize);
}

impl Places for () {
    fn keep(&mut self, _: usize, _: usize) {}
}

impl Places for [u8; MOST_RECORDS] {
    fn keep(&mut self, row: usize, prompt: usize) {
        self[row] = prompt as u8;
    }
}

/// The records of a file that is accepted.
#[inline(always)]
pub fn check<'a>(
    file: &'a [u8],
    notes: &mut Notes,
    places: &mut impl Places,
) -> Result<&'a [Record], Refusal> {
    let records = records(file, notes, places)?;
    if notes.converts() {
        conversions(
            records.iter().enumerate().filter(|(_, record)| record[0] == ROW),
            &notes.rates,
        )?;
    }
    Ok(records)
}

/// The records of a file that has none of 1 to 9.
#[inline(always)]
pub fn records<'a>(
    file: &'a [u8],
    notes: &mut Notes,
    places: &mut impl Places,
) -> Result<&'a [Record], Refusal> {
    if file.len() > MOST_BYTES {
        return Err(Refusal { number: TOO_LONG, record: 0 });
    }
    let (records, cut) = file.as_chunks();
    if !cut.is_empty() {
        return Err(Refusal { number: NOT_WHOLE_RECORDS, record: 0 });
    }
    let mut walk = Walk { records, notes, before: Before::default() };
    for place in 0..records.len() {
        walk.pass(place, places).map_err(|number| Refusal { number, record: place })?;
    }
    Ok(records)
}

/// Rows in file order: 14 for one whose currency has no rate, else 15 for one with a conversion beyond its limit.
#[cold]
pub fn conversions<'a>(
    rows: impl Iterator<Item = (usize, &'a Record)>,
    rates: &Rates,
) -> Result<(), Refusal> {
    for (record, row) in rows {
        let currency = usize::from(row[CURRENCY.at]);
        if currency != 0 {
            let refusal = |number| Refusal { number, record };
            let rate = rates.of(currency).ok_or(refusal(NO_RATE))?;
            let a_tick = get(row, LOTS) * get(row, VALUE);
            let converted = |ticks| rate.converted(a_tick * i64::from(ticks)).unsigned_abs();
            if losses(row).into_iter().any(|ticks| converted(ticks) > MOST_CONVERTED as u64) {
                return Err(refusal(CONVERSION_TOO_LARGE));
            }
        }
    }
    Ok(())
}

/// The last record of each kind, as far as order goes by it.
struct Before {
    kind: u8,
    contract: i64,
    prompt: (i64, i64),
    tier: i64,
    row: i64,
    /// The days of the contract of the last row, and a number above every day beyond them.
    days: [i32; MOST_PROMPTS],
    spread: i64,
    rate: i64,
}

impl Default for Before {
    fn default() -> Before {
        Before {
            kind: 0,
            contract: -1,
            prompt: (-1, 0),
            tier: 0,
            row: -1,
            days: [i32::MAX; MOST_PROMPTS],
            spread: -1,
            rate: 0,
        }
    }
}

struct Walk<'a, 'b> {
    records: &'a [Record],
    notes: &'b mut Notes,
    before: Before,
}

/// The first of refusals 3 to 9 that a record gets.
type Passed = Result<(), u8>;

/// A refusal where its condition holds.
#[inline(always)]
fn refuse(condition: bool, number: u8) -> Passed {
    if condition {
        Err(number)
    } else {
        Ok(())
    }
}

impl Walk<'_, '_> {
    #[inline(always)]
    fn pass(&mut self, place: usize, places: &mut impl Places) -> Passed {
        let record = &self.records[place];
        let kind = record[0];
        refuse(!(CONTRACT..=CURRENCY_RATE).contains(&kind), UNKNOWN_KIND)?;
        refuse(kind < self.before.kind, KIND_BELOW)?;
        self.before.kind = kind;
        match kind {
            CONTRACT => self.contract(record),
            PROMPT => self.prompt(record, place),
            ROW => self.row(record, place, places),
            SPREAD => self.spread(record, place),
            ENTRY => self.entry(record, place),
            _ => self.rate(record),
        }
    }

    fn contract(&mut self, record: &Record) -> Passed {
        refuse((record[2] | record[3] != 0) | set_from::<10>(record), UNUSED_BYTE)?;
        let outside =
            outside(record, NUMBER) | outside(record, SHORT_OPTION_RATE) | outside(record, UNIT);
        refuse(outside, OUT_OF_RANGE)?;
        let number = get(record, NUMBER);
        refuse(number <= self.before.contract, ORDER_OR_CLASH)?;
        self.before.contract = number;
        self.notes.listed |= 1 << number;
        Ok(())
    }

    fn prompt(&mut self, record: &Record, place: usize) -> Passed {
        refuse((record[3] != 0) | set_from::<16>(record), UNUSED_BYTE)?;
        let outside = outside(record, NUMBER)
            | outside(record, PROMPT_TIER)
            | outside(record, DAY)
            | outside(record, RATE_IN_SPREADS)
            | outside(record, RATE_OUTRIGHT);
        refuse(outside, OUT_OF_RANGE)?;
        let contract = get(record, NUMBER);
        refuse(!self.notes.lists(contract as usize), UNLISTED)?;
        let day = (contract, get(record, DAY));
        let tier = get(record, PROMPT_TIER);
        let falls = (contract == self.before.prompt.0) & (tier < self.before.tier);
        refuse((day <= self.before.prompt) | falls, ORDER_OR_CLASH)?;
        self.before.prompt = day;
        self.before.tier = tier;
        self.notes.tiers[contract as usize] |= 1 << tier;
        self.notes.prompts[contract as usize].add(place, MOST_PROMPTS)
    }

    #[inline(always)]
    fn row(&mut self, row: &Record, place: usize, places: &mut impl Places) -> Passed {
        refuse(set_from::<88>(row), UNUSED_BYTE)?;
        refuse(row_outside(row), OUT_OF_RANGE)?;
        let contract = get(row, NUMBER);
        if contract != self.before.row {
            self.read_days(contract as usize);
        }
        let day = get(row, DAY) as i32;
        let below: i32 = self.before.days.iter().map(|other| i32::from(*other < day)).sum();
        let prompt = below as usize;
        refuse(self.before.days.get(prompt) != Some(&day), UNLISTED)?;
        refuse(contract < self.before.row, ORDER_OR_CLASH)?;
        self.before.row = contract;
        self.notes.rows[contract as usize].add(place, MOST_ROWS)?;
        places.keep(place, prompt);
        self.notes.currencies |= 1 << row[CURRENCY.at];
        Ok(())
    }

    fn read_days(&mut self, contract: usize) {
        let prompts = &self.records[self.notes.prompts[contract].range()];
        self.before.days.fill(i32::MAX);
        for (day, prompt) in self.before.days.iter_mut().zip(prompts) {
            *day = get(prompt, DAY) as i32;
        }
    }

    fn spread(&mut self, spread: &Record, place: usize) -> Passed {
        let three = get(spread, LEGS) != 2;
        let unused = (spread[3] != 0) | set_from::<20>(spread);
        refuse(unused | (!three & set_from::<16>(spread)), UNUSED_BYTE)?;
        let outside = outside(spread, NUMBER)
            | outside(spread, LEGS)
            | outside(spread, SPREAD_RATE)
            | leg_outside(spread, 0)
            | leg_outside(spread, 1)
            | (three & leg_outside(spread, 2));
        refuse(outside, OUT_OF_RANGE)?;
        let contract = get(spread, NUMBER);
        let tiers = self.notes.tiers[contract as usize];
        let unlisted = |leg| tiers >> get(spread, leg_tier(leg)) & 1 == 0;
        refuse(unlisted(0) | unlisted(1) | (three & unlisted(2)), UNLISTED)?;
        refuse((contract < self.before.spread) | legs_clash(spread, three), ORDER_OR_CLASH)?;
        self.before.spread = contract;
        self.notes.spreads[contract as usize].add(place, MOST_SPREADS)
    }

    fn entry(&mut self, entry: &Record, place: usize) -> Passed {
        refuse(set_from::<9>(entry), UNUSED_BYTE)?;
        let [first, second] = entry_ratios(get(entry, TENTHS));
        let outside = outside(entry, NUMBER)
            | outside(entry, SECOND_NUMBER)
            | outside(entry, PERCENT)
            | outside(entry, first)
            | outside(entry, second)
            | outside(entry, TENTHS);
        refuse(outside, OUT_OF_RANGE)?;
        let (first, second) = (get(entry, NUMBER), get(entry, SECOND_NUMBER));
        let lists = |contract: i64| self.notes.lists(contract as usize);
        refuse(!(lists(first) & lists(second)), UNLISTED)?;
        refuse(first == second, ORDER_OR_CLASH)?;
        self.notes.entries.add(place, MOST_ENTRIES)
    }

    fn rate(&mut self, rate: &Record) -> Passed {
        refuse((rate[2] != 0) | (rate[3] != 0) | set_from::<9>(rate), UNUSED_BYTE)?;
        let outside =
            outside(rate, RATE_CURRENCY) | outside(rate, SPOT_RATE) | outside(rate, ADJUSTMENT);
        refuse(outside, OUT_OF_RANGE)?;
        let currency = get(rate, RATE_CURRENCY);
        refuse(currency <= self.before.rate, ORDER_OR_CLASH)?;
        self.before.rate = currency;
        self.notes.rates.add(currency as usize, get(rate, SPOT_RATE), get(rate, ADJUSTMENT));
        Ok(())
    }
}

#[inline(always)]
fn row_outside(row: &Record) -> bool {
    let class = get(row, CLASS);
    let field = loss(0);
    let [least, most] = [field.least as i32, field.most as i32];
    let losses = losses(row).iter().fold(false, |any, loss| any | (*loss < least) | (*loss > most));
    outside(row, NUMBER)
        | outside(row, CLASS)
        | outside(row, CURRENCY)
        | outside(row, DAY)
        | outside(row, strike(class))
        | outside(row, LOTS)
        | outside(row, delta(class))
        | outside(row, VALUE)
        | losses
}

#[inline(always)]
fn leg_outside(spread: &Record, leg: usize) -> bool {
    outside(spread, leg_tier(leg))
        | outside(spread, leg_side(leg))
        | outside(spread, leg_ratio(leg))
}

/// Two legs with the same tier and side, or none on a side. The numbers of the sides are bits.
#[inline(always)]
fn legs_clash(spread: &Record, three: bool) -> bool {
    let leg = |leg| (get(spread, leg_tier(leg)), get(spread, leg_side(leg)));
    let (a, b, c) = (leg(0), leg(1), leg(2));
    let sides = a.1 | b.1 | if three { c.1 } else { 0 };
    (a == b) | (three & ((a == c) | (b == c))) | (sides != SIDE_A | SIDE_B)
}
