//! The figures: scanning risk, charges, credit, short option minimum and margin of each contract, and
//! the total.

use crate::account::{Account, Contract, Prompt};
use crate::book::{intercontract, interprompt, Book, Line};
use crate::format::SCENARIOS;
use crate::units::{Amount, Delta, Quotient, Spreads, Unit, ONE};

/// "Paired scenarios (000), for 1 to 16."
pub const PAIRED_SCENARIOS: [usize; SCENARIOS] =
    [2, 1, 4, 3, 6, 5, 8, 7, 10, 9, 12, 11, 14, 13, 15, 16];

/// The eight numbers of a contract.
#[derive(Clone, Copy, Debug, PartialEq, Eq)]
pub struct Figures {
    pub contract: i64,
    pub active_scenario: usize,
    pub scanning_risk: Amount,
    pub interprompt_charge: Amount,
    pub prompt_charge: Amount,
    pub credit: Amount,
    pub short_option_minimum: Amount,
    pub margin: Amount,
}

impl Figures {
    pub fn numbers(&self) -> [i64; 8] {
        [
            self.contract,
            self.active_scenario as i64,
            self.scanning_risk.0,
            self.interprompt_charge.0,
            self.prompt_charge.0,
            self.credit.0,
            self.short_option_minimum.0,
            self.margin.0,
        ]
    }
}

/// The figures of each contract in file order.
pub fn figures_of(account: &Account) -> Vec<Figures> {
    let table = intercontract(account);
    account
        .contracts
        .iter()
        .enumerate()
        .map(|(place, contract)| contract_figures(account, &table, place, contract))
        .collect()
}

/// "The total is the sum of the margins."
pub fn total(figures: &[Figures]) -> Amount {
    figures.iter().map(|contract| contract.margin).sum()
}

fn contract_figures(account: &Account, table: &Book, place: usize, contract: &Contract) -> Figures {
    // 2026-09: "every charge and credit that 01 rounds to a hundredth is rounded to it, halves up"
    let unit = contract.unit;
    let totals = totals(contract);
    let scanning_risk = scanning_risk(&totals);
    let book = interprompt(contract);
    let interprompt_charge = contract
        .spreads
        .iter()
        .enumerate()
        .map(|(spread, terms)| unit.halves_up(spread_charge(book.formed(spread), terms.rate)))
        .sum();
    let prompt_charges = contract
        .prompts
        .iter()
        .zip(&book.lines)
        .map(|(prompt, line)| unit.halves_up(prompt_charge(prompt, line)))
        .sum();
    let credit = credits(account, table, place, twice_price_risk(&totals));
    let minimum = short_option_minimum(contract);
    Figures {
        contract: contract.number,
        active_scenario: active_scenario(&totals),
        scanning_risk,
        interprompt_charge,
        prompt_charge: prompt_charges,
        credit,
        short_option_minimum: minimum,
        margin: margin(scanning_risk + interprompt_charge + prompt_charges, credit, minimum),
    }
}

/// "For each scenario add lots × value × loss over the contract's rows", each converted and rounded to its
/// unit.
pub fn totals(contract: &Contract) -> [Amount; SCENARIOS] {
    let mut totals = [Amount(0); SCENARIOS];
    for row in &contract.rows {
        for (total, product) in totals.iter_mut().zip(row.products) {
            *total += product;
        }
    }
    totals
}

/// "The active scenario is the lowest number holding the largest total, even a negative one."
pub fn active_scenario(totals: &[Amount; SCENARIOS]) -> usize {
    let mut active = 1;
    for scenario in 2..=SCENARIOS {
        if total_of(totals, scenario) > total_of(totals, active) {
            active = scenario;
        }
    }
    active
}

/// "Scanning risk is the largest total, or 0 if that is negative."
pub fn scanning_risk(totals: &[Amount; SCENARIOS]) -> Amount {
    total_of(totals, active_scenario(totals)).max(Amount(0))
}

/// Twice the price risk, so that its halves are kept: "Price risk = (active total + paired total)/2 -
/// (total 1 + total 2)/2, halves kept, or 0 if negative."
pub fn twice_price_risk(totals: &[Amount; SCENARIOS]) -> Amount {
    let active = active_scenario(totals);
    let paired = PAIRED_SCENARIOS[active - 1];
    let moved = total_of(totals, active) + total_of(totals, paired);
    let still = total_of(totals, 1) + total_of(totals, 2);
    (moved - still).max(Amount(0))
}

/// The total of a scenario, which the paper counts from 1.
fn total_of(totals: &[Amount; SCENARIOS], scenario: usize) -> Amount {
    totals[scenario - 1]
}

/// "The spread's charge is (first + second number) × rate / 10,000", before it is rounded.
pub fn spread_charge((first, second): (Spreads, Spreads), rate: Amount) -> Quotient {
    let number = first + second;
    Quotient { dividend: i128::from(number.0) * i128::from(rate.0), divisor: i128::from(ONE) }
}

/// "A prompt's charge is (|used| × first rate + |unused| × second rate) / 10,000", before it is rounded.
pub fn prompt_charge(prompt: &Prompt, line: &Line) -> Quotient {
    let in_spreads = i128::from(line.used.size().0) * i128::from(prompt.rate_in_spreads.0);
    let outright = i128::from(line.unused.size().0) * i128::from(prompt.rate_outright.0);
    Quotient { dividend: in_spreads + outright, divisor: i128::from(ONE) }
}

/// A contract's credits from all the entries of the intercontract table, each rounded by itself.
fn credits(account: &Account, table: &Book, place: usize, twice_price_risk: Amount) -> Amount {
    let (net, unit) = (table.lines[place].net, account.contracts[place].unit);
    account
        .entries
        .iter()
        .zip(&table.steps)
        .map(|(entry, [first, second])| {
            let used = first.given[place] + second.given[place];
            credit(twice_price_risk, used, net, entry.percent, unit)
        })
        .sum()
}

/// How many ten-thousandths make one unit of the currency in a unit price risk.
const FOUR_PLACES: i128 = 10_000;

/// The unit price risk before rounding, in ten-thousandths of the currency for one whole delta. 2026-04
/// of document 02: "The unit price risk, price risk over |net delta|, is rounded to four decimals,
/// halves up". The price risk is half of the first number, in hundredths; the net delta, which is not
/// 0, is in ten-thousandths.
pub fn unit_price_risk(twice_price_risk: Amount, net: Delta) -> Quotient {
    Quotient {
        dividend: i128::from(twice_price_risk.0) * i128::from(ONE) * FOUR_PLACES,
        divisor: 2 * 100 * i128::from(net.size().0),
    }
}

/// The credit before rounding, in hundredths: the rounded unit price risk × used delta × percent.
pub fn credit_of(unit_price_risk: i128, used: Delta, percent: i64) -> Quotient {
    Quotient {
        dividend: unit_price_risk * 100 * i128::from(used.size().0) * i128::from(percent),
        divisor: FOUR_PLACES * i128::from(ONE) * 100,
    }
}

/// "A contract's credit from one entry = price risk × |used in that entry| × percent / (100 × |net
/// delta|), rounded once, halves up; 0 where the net delta is 0." The net delta is all of it, and what
/// it is rounded to is the contract's unit. By 2026-04 the unit price risk is rounded "before it meets used delta and percent".
pub fn credit(
    twice_price_risk: Amount,
    used: Delta,
    net: Delta,
    percent: i64,
    unit: Unit,
) -> Amount {
    if net == Delta(0) {
        return Amount(0);
    }
    let unit_price_risk = unit_price_risk(twice_price_risk, net).halves_up();
    unit.halves_up(credit_of(unit_price_risk, used, percent))
}

/// "Short option minimum: short lots of calls and puts × rate." It "stays exact" whatever the unit.
pub fn short_option_minimum(contract: &Contract) -> Amount {
    let short_lots: i64 =
        contract.rows.iter().filter(|row| row.option && row.lots < 0).map(|row| -row.lots).sum();
    Amount(short_lots * contract.short_option_rate.0)
}

/// "Margin: the larger of that minimum and (scanning + interprompt + prompt - credits, not below 0)."
pub fn margin(risk: Amount, credit: Amount, minimum: Amount) -> Amount {
    (risk - credit).max(Amount(0)).max(minimum)
}
