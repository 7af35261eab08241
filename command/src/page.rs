//! The page of figures for people: amounts in the currency with two places, or with none for a contract whose unit is whole. Books,
//! working and who paid are the report's.

use crate::account::{adjusted, Account, Contract};
use crate::numbers::{amount, amount_in, decimal, rate};
use crate::table::table;

/// The figures of a contract, in the library's order.
pub const FIGURES: [&str; 8] = [
    "contract",
    "active scenario",
    "scanning risk",
    "interprompt charge",
    "prompt charge",
    "credit",
    "short option minimum",
    "margin",
];

const EMPTY: &str = "The account is empty: it has no records.\n\n";

fn empty(account: &Account) -> &'static str {
    if account.records == 0 {
        EMPTY
    } else {
        ""
    }
}

/// A contract's figures: its number and scenario as they are, the rest as amounts.
pub fn figures_in_words(contract: &Contract, amount: impl Fn(i64) -> String) -> Vec<String> {
    let figure = |(at, figure): (usize, &i64)| match at {
        0 | 1 => figure.to_string(),
        _ => amount(*figure),
    };
    contract.figures.iter().enumerate().map(figure).collect()
}

/// The figures of all contracts in one table, and the total.
pub fn margin(name: &str, account: &Account) -> String {
    let mut rows = vec![FIGURES.map(str::to_string).to_vec()];
    let figures = |contract: &Contract| figures_in_words(contract, |figure| amount_in(contract.unit, figure));
    rows.extend(account.contracts.iter().map(figures));
    let mut total = vec![String::new(); FIGURES.len()];
    total[0] = "total".to_string();
    total[FIGURES.len() - 1] = amount(account.total);
    rows.push(total);
    let contracts = || account.contracts.iter();
    let notes: String = contracts().filter_map(rounded).chain(contracts().filter_map(converted)).chain(rates(account)).collect();
    let notes = if notes.is_empty() { notes } else { format!("\n{notes}") };
    format!("Margin of {name}, in the currency\n\n{}{}{notes}", empty(account), table(&rows))
}

/// Which rows of a contract are in other currencies.
fn converted(contract: &Contract) -> Option<String> {
    let Contract { currencies, figures, .. } = contract;
    let named: Vec<String> = currencies.iter().map(i64::to_string).collect();
    let of = if named.len() == 1 { "currency" } else { "currencies" };
    let told = format!("  Contract {}: its rows in {of} {} are converted.\n", figures[0], named.join(", "));
    (!named.is_empty()).then_some(told)
}

/// The rate of each currency, and what it is for losses and for gains.
fn rates(account: &Account) -> impl Iterator<Item = String> + '_ {
    account.rates.iter().map(|of| {
        let (spot, losses, gains) = (decimal(of.spot.into(), 6), rate(adjusted(of, true)), rate(adjusted(of, false)));
        format!("  Currency {}: rate {spot}, for losses {losses}, for gains {gains}.\n", of.currency)
    })
}

/// What a contract whose unit is not a hundredth is rounded to.
fn rounded(contract: &Contract) -> Option<String> {
    let Contract { unit, figures, .. } = contract;
    let to = amount(*unit);
    (*unit > 1).then(|| format!("  Contract {}: each product, charge and credit is rounded to {to}.\n", figures[0]))
}
