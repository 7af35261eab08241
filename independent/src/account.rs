//! An accepted account, read from its records: contracts in file order, each with its prompts, rows
//! and interprompt spreads, the intercontract table and the currency rates.

use crate::currency::{converted_products, rates, Rate};
use crate::format::*;
use crate::steps::{Leg, Side};
use crate::units::{Amount, Delta, Quotient, Unit};

pub struct Account {
    /// How many records the file has; refusals 10 and 11 name it.
    pub records: usize,
    pub contracts: Vec<Contract>,
    pub entries: Vec<Entry>,
    pub rates: Vec<Rate>,
}

pub struct Contract {
    pub number: i64,
    pub short_option_rate: Amount,
    pub unit: Unit,
    pub prompts: Vec<Prompt>,
    pub rows: Vec<Row>,
    pub spreads: Vec<Spread>,
}

pub struct Prompt {
    pub tier: i64,
    pub day: i64,
    pub rate_in_spreads: Amount,
    pub rate_outright: Amount,
}

pub struct Row {
    pub option: bool,
    pub day: i64,
    pub lots: i64,
    pub delta: Delta,
    /// Per tick and lot.
    pub value: Amount,
    /// In ticks, scenario 1 first.
    pub losses: [i64; SCENARIOS],
    pub currency: i64,
    /// Lots × value × loss in the margin currency, rounded to the contract's unit.
    pub products: [Amount; SCENARIOS],
}

/// An interprompt spread.
pub struct Spread {
    pub rate: Amount,
    pub legs: Vec<Leg>,
}

/// An intercontract spread.
pub struct Entry {
    pub first: i64,
    pub second: i64,
    pub percent: i64,
    pub first_ratio: i64,
    pub second_ratio: i64,
    /// Whether the ratios are tenths.
    pub tenths: bool,
}

impl Entry {
    /// "Each contract a tier"; "the first contract is A".
    pub fn legs(&self) -> Vec<Leg> {
        let parts = if self.tenths { 10 } else { 1 };
        vec![
            Leg { tier: self.first, side: Side::A, ratio: self.first_ratio, parts },
            Leg { tier: self.second, side: Side::B, ratio: self.second_ratio, parts },
        ]
    }
}

impl Account {
    /// Reads the records of a file that the check has accepted.
    pub(crate) fn read(records: &[Record]) -> Account {
        let rates = rates(records);
        let (contracts, entries) = (vec![], vec![]);
        let mut account = Account { records: records.len(), contracts, entries, rates };
        for record in records {
            match record.kind() {
                CONTRACT => account.contracts.push(contract(record)),
                PROMPT => account.named_by(record).prompts.push(prompt(record)),
                ROW => {
                    let rates = account.rates.clone();
                    let contract = account.named_by(record);
                    contract.rows.push(row(record, &rates, contract.unit));
                }
                SPREAD => account.named_by(record).spreads.push(spread(record)),
                ENTRY => account.entries.push(entry(record)),
                _ => {}
            }
        }
        account
    }

    /// The contract with this number, if the account lists it.
    pub fn contract(&self, number: i64) -> Option<&Contract> {
        self.contracts.iter().find(|contract| contract.number == number)
    }

    fn named_by(&mut self, record: &Record) -> &mut Contract {
        let number = record.get(NUMBER);
        self.contracts
            .iter_mut()
            .find(|contract| contract.number == number)
            .expect("the check has seen that the contract is listed")
    }
}

fn contract(record: &Record) -> Contract {
    Contract {
        number: record.get(NUMBER),
        short_option_rate: Amount(record.get(SHORT_OPTION_RATE)),
        unit: Unit(record.get(UNIT).max(1)),
        prompts: vec![],
        rows: vec![],
        spreads: vec![],
    }
}

fn prompt(record: &Record) -> Prompt {
    Prompt {
        tier: record.get(PROMPT_TIER),
        day: record.get(DAY),
        rate_in_spreads: Amount(record.get(RATE_IN_SPREADS)),
        rate_outright: Amount(record.get(RATE_OUTRIGHT)),
    }
}

fn row(record: &Record, rates: &[Rate], unit: Unit) -> Row {
    let class = record.get(CLASS);
    let mut losses = [0; SCENARIOS];
    for (scenario, ticks) in losses.iter_mut().enumerate() {
        *ticks = record.get(loss(scenario));
    }
    Row {
        option: class == CALL || class == PUT,
        day: record.get(DAY),
        lots: record.get(LOTS),
        delta: Delta(record.get(delta(class))),
        value: Amount(record.get(VALUE)),
        losses,
        currency: record.get(CURRENCY),
        // 2026-09: "Every row product, after conversion to hundredths, is rounded to it, halves away
        // from zero"
        products: converted_products(*record, rates)
            .map(|product| unit.halves_away(Quotient::whole(product.0))),
    }
}

fn spread(record: &Record) -> Spread {
    let legs = (0..legs_in_use(record.get(LEGS)))
        .map(|leg| Leg {
            tier: record.get(leg_tier(leg)),
            side: if record.get(leg_side(leg)) == SIDE_A { Side::A } else { Side::B },
            ratio: record.get(leg_ratio(leg)),
            parts: 1,
        })
        .collect();
    Spread { rate: Amount(record.get(SPREAD_RATE)), legs }
}

fn entry(record: &Record) -> Entry {
    Entry {
        first: record.get(NUMBER),
        second: record.get(SECOND_NUMBER),
        percent: record.get(PERCENT),
        first_ratio: record.get(FIRST_RATIO),
        second_ratio: record.get(SECOND_RATIO),
        tenths: record.get(TENTHS) == TENTHS.most,
    }
}
