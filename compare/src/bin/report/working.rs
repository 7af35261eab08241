//! The working of a page against the independent program: the rows, the sixteen totals, single charges and credits, the sums over
//! each column, and what is said of what is still open.

use crate::tables::{amount, number, Tables};
use independent::account::{Account, Contract};
use independent::book::{book_of, intercontract, interprompt, Book, INTERCONTRACT};
use independent::currency::Rate;
use independent::format::*;
use independent::margin::{self, figures_of, Figures};
use independent::steps::{steps, Leg, Net, Side};
use independent::units::{Amount, Delta};

fn equal(what: &str, found: i128, wanted: i128) -> Result<(), String> {
    if found == wanted {
        return Ok(());
    }
    Err(format!("{what}: the page has {found}, the independent program {wanted}"))
}

/// How a cell is read: as a number or as an amount.
type Reads = fn(&str) -> Result<i128, String>;

/// The numbers of a column, but for the last row, must be these; the last row must be their sum.
fn column(what: &str, rows: &[&[String]], at: usize, read: Reads, wanted: &[i64]) -> Result<(), String> {
    equal(&format!("rows of {what}"), rows.len() as i128, wanted.len() as i128 + 1)?;
    let mut sum = 0;
    for (row, wanted) in rows.iter().zip(wanted) {
        equal(what, read(&row[at])?, (*wanted).into())?;
        sum += read(&row[at])?;
    }
    equal(&format!("sum of {what}"), read(&rows[wanted.len()][at])?, sum)
}

pub fn compare(tables: &Tables, account: &Account, file: &[u8]) -> Result<(), String> {
    let table = intercontract(account);
    for (place, (contract, figures)) in account.contracts.iter().zip(figures_of(account)).enumerate() {
        let name = format!("contract-{}", contract.number);
        let rows = |of: &str| tables.rows(&format!("{name}-{of}"));
        let told = |fault: String| format!("contract {}: {fault}", contract.number);
        let totals = margin::totals(contract);
        compare_margin(&rows("margin"), contract, &figures).map_err(told)?;
        compare_totals(&rows("totals"), &totals.map(|total| total.0), figures.active_scenario).map_err(told)?;
        compare_rows(&rows("rows"), file, account, contract, figures.active_scenario).map_err(told)?;
        let book = interprompt(contract);
        compare_charges(&rows("paid"), &rows("prompts"), contract, &book, &figures).map_err(told)?;
        let of_contract = credits(account, &table, place, margin::twice_price_risk(&totals));
        if !of_contract.is_empty() {
            column("credit", &rows("credits"), 4, amount, &of_contract).map_err(told)?;
        }
        equal("credits", of_contract.iter().map(|credit| i128::from(*credit)).sum(), figures.credit.0.into()).map_err(told)?;
        let legs = contract.spreads.iter().map(|spread| spread.legs.clone()).collect();
        let prompts = contract.prompts.iter().map(|prompt| (vec![prompt.day.to_string(), prompt.tier.to_string()], prompt.tier));
        Left { of: "tier", legs, prompts: prompts.collect(), unused: unused(&book) }.compare(&rows("open")).map_err(told)?;
    }
    compare_rates(&tables.rows("rates"), &account.rates)?;
    let legs = account.entries.iter().map(|entry| entry.legs()).collect();
    let contracts = account.contracts.iter().map(|contract| (vec![format!("contract {}", contract.number)], contract.number));
    let left = Left { of: "contract", legs, prompts: contracts.collect(), unused: unused(&table) };
    left.compare(&tables.rows("intercontract-open"))
}

/// Scanning risk, charges and credit add up to the risk, and the larger of risk and minimum is the margin.
fn compare_margin(rows: &[&[String]], contract: &Contract, figures: &Figures) -> Result<(), String> {
    let amounts: Vec<i128> = rows.iter().map(|row| amount(&row[1])).collect::<Result<_, _>>()?;
    let [scanning, interprompt, prompt, credit, risk, minimum, margin] = amounts[..] else {
        return Err("not seven amounts".to_string());
    };
    let wanted = figures.numbers();
    let found = [scanning, interprompt, prompt, -credit, minimum, margin];
    for (at, found) in found.into_iter().enumerate() {
        equal("a figure", found, wanted[at + 2].into())?;
    }
    equal("the risk", risk, (scanning + interprompt + prompt + credit).max(0))?;
    equal("the margin", margin, risk.max(minimum))?;
    for (row, amount) in rows.iter().zip(&amounts) {
        let whole = contract.unit.0 % 100 == 0 && amount % 100 == 0;
        equal("whole amounts without places", (!row[1].contains('.')).into(), whole.into())?;
    }
    equal("the minimum", minimum, margin::short_option_minimum(contract).0.into())
}

fn compare_totals(rows: &[&[String]], totals: &[i64; SCENARIOS], active: usize) -> Result<(), String> {
    equal("scenarios", rows.len() as i128, SCENARIOS as i128)?;
    for (scenario, (row, total)) in (1..).zip(rows.iter().zip(totals)) {
        equal("scenario", number(&row[0])?, scenario as i128)?;
        equal("total", amount(&row[1])?, (*total).into())?;
        equal("active", row[2].starts_with("active").into(), (scenario == active).into())?;
        let paired = margin::PAIRED_SCENARIOS[active - 1] == scenario;
        equal("paired", row[2].contains("paired with").into(), paired.into())?;
    }
    Ok(())
}

/// The rate of each currency as it stands, and raised and lowered by its percent.
fn compare_rates(rows: &[&[String]], rates: &[Rate]) -> Result<(), String> {
    equal("rates", rows.len() as i128, rates.len() as i128)?;
    for (row, rate) in rows.iter().zip(rates) {
        let Rate { currency, spot, adjustment_percent } = *rate;
        let adjusted = [spot * (100 + adjustment_percent), spot * (100 - adjustment_percent)];
        let wanted = [currency, spot, adjustment_percent, adjusted[0], adjusted[1]];
        for (cell, wanted) in row.iter().zip(wanted) {
            equal("a rate", number(cell)?, wanted.into())?;
        }
    }
    Ok(())
}

/// Every row of the file with its fields, and its amount in the active scenario; where a row is in another currency than the margin's,
/// also each row's currency, its amount in it, and the rate that it is converted at.
fn compare_rows(rows: &[&[String]], file: &[u8], account: &Account, contract: &Contract, active: usize) -> Result<(), String> {
    let all = records(file);
    let of_contract: Vec<&Record> = all.iter().filter(|row| row.kind() == ROW && row.get(NUMBER) == contract.number).collect();
    if of_contract.is_empty() {
        return equal("rows", rows.len() as i128, 0);
    }
    let numbers = |of: &dyn Fn(&Record) -> i64| -> Vec<i64> { of_contract.iter().map(|record| of(record)).collect() };
    let net = |record: &Record| record.get(LOTS) * record.get(delta(record.get(CLASS)));
    let product = |record: &Record| record.get(LOTS) * record.get(VALUE) * record.get(loss(active - 1));
    let amounts: Vec<i64> = contract.rows.iter().map(|row| row.products[active - 1].0).collect();
    let converted = of_contract.iter().any(|record| record.get(CURRENCY) != MARGIN_CURRENCY);
    column("lots x delta", rows, 6, number, &numbers(&net))?;
    column("amount", rows, if converted { 12 } else { 9 }, amount, &amounts)?;
    for (place, (row, record)) in (1..).zip(rows.iter().zip(&of_contract)) {
        let class = record.get(CLASS);
        let word = ["forward", "call", "put"][class as usize];
        let of_strike = if class == FORWARD { "-".to_string() } else { record.get(strike(class)).to_string() };
        if row[1] != word || row[3] != of_strike {
            return Err(format!("row {place} is a {word} with strike {of_strike}"));
        }
        let fields = [place, record.get(DAY), record.get(LOTS), record.get(delta(class)), record.get(loss(active - 1))];
        for (cell, wanted) in [0, 2, 4, 5, 8].into_iter().zip(fields) {
            equal(&format!("row {place}"), number(&row[cell])?, wanted.into())?;
        }
        equal(&format!("value of row {place}"), amount(&row[7])?, record.get(VALUE).into())?;
        if converted {
            let currency = record.get(CURRENCY);
            equal(&format!("currency of row {place}"), number(&row[9])?, currency.into())?;
            equal(&format!("row {place} in its currency"), amount(&row[10])?, product(record).into())?;
            let rate = account.rates.iter().find(|rate| rate.currency == currency);
            let percent = |rate: &Rate| rate.adjustment_percent * if product(record) > 0 { 1 } else { -1 };
            let at = rate.map_or("-".to_string(), |rate| places(rate.spot * (100 + percent(rate)), 8));
            if row[11] != at {
                return Err(format!("row {place} is converted at {} in place of {at}", row[11]));
            }
        }
    }
    Ok(())
}

fn compare_charges(
    paid: &[&[String]],
    prompts: &[&[String]],
    contract: &Contract,
    book: &Book,
    figures: &Figures,
) -> Result<(), String> {
    let of_spreads: Vec<i64> = contract
        .spreads
        .iter()
        .enumerate()
        .map(|(at, spread)| contract.unit.halves_up(margin::spread_charge(book.formed(at), spread.rate)).0)
        .collect();
    if !of_spreads.is_empty() {
        let charged: Vec<&[String]> = paid.iter().copied().filter(|row| !row[6].is_empty()).collect();
        column("charge of a spread", &charged, 6, amount, &of_spreads)?;
    }
    equal("interprompt charge", of_spreads.iter().map(|charge| i128::from(*charge)).sum(), figures.interprompt_charge.0.into())?;
    let of_prompts: Vec<i64> = contract
        .prompts
        .iter()
        .zip(&book.lines)
        .map(|(prompt, line)| contract.unit.halves_up(margin::prompt_charge(prompt, line)).0)
        .collect();
    if of_prompts.is_empty() {
        return equal("prompts", prompts.len() as i128, 0);
    }
    column("charge of a prompt", prompts, 7, amount, &of_prompts)
}

/// A contract's credit from each intercontract spread that names it.
fn credits(account: &Account, table: &Book, place: usize, twice: Amount) -> Vec<i64> {
    let number = account.contracts[place].number;
    let naming = account.entries.iter().zip(&table.steps).filter(|(entry, _)| [entry.first, entry.second].contains(&number));
    let credit =
        |used: Delta, percent: i64| margin::credit(twice, used, table.lines[place].net, percent, account.contracts[place].unit).0;
    naming.map(|(entry, [first, second])| credit(first.given[place] + second.given[place], entry.percent)).collect()
}

fn unused(book: &Book) -> Vec<i64> {
    book.lines.iter().map(|line| line.unused.0).collect()
}

/// What is left of a book: the legs of its spreads, and each prompt by its cells, its tier and what is unused.
struct Left {
    of: &'static str,
    legs: Vec<Vec<Leg>>,
    prompts: Vec<(Vec<String>, i64)>,
    unused: Vec<i64>,
}

impl Left {
    /// Each prompt that is still open, each step that could take it, and the legs that have too little left for it.
    fn compare(&self, rows: &[&[String]]) -> Result<(), String> {
        let mut wanted: Vec<Vec<String>> = vec![];
        let open = self.prompts.iter().zip(&self.unused).filter(|(_, unused)| !self.legs.is_empty() && **unused != 0);
        for ((cells, tier), unused) in open {
            let mut first = [&cells[..], &[places(*unused, 4)]].concat();
            for reason in self.reasons(*tier, *unused > 0) {
                wanted.push([&first[..], &reason].concat());
                first.iter_mut().for_each(String::clear);
            }
        }
        let found: Vec<Vec<String>> = rows.iter().map(|row| row.to_vec()).collect();
        let differ = wanted.iter().zip(&found).find(|(wanted, found)| wanted != found);
        match differ {
            Some((wanted, found)) => Err(format!("still open: {found:?} in place of {wanted:?}")),
            None => equal("rows of what is still open", found.len() as i128, wanted.len() as i128),
        }
    }

    fn reasons(&self, tier: i64, long: bool) -> Vec<[String; 2]> {
        let mut reasons = vec![];
        for (spread, legs) in (1..).zip(&self.legs) {
            for leg in legs.iter().filter(|leg| leg.tier == tier) {
                let long_side = if long == (leg.side == Side::A) { Side::A } else { Side::B };
                let step = if long_side == Side::A { "first step" } else { "second step" };
                let mut name = format!("spread {spread}, {step}");
                let lacking = legs.iter().filter_map(|leg| self.lacking(leg, long_side));
                reasons.extend(lacking.map(|lacking| [std::mem::take(&mut name), lacking]));
                if !name.is_empty() {
                    let number = legs.iter().map(|leg| leg.parts * self.pool(leg, long_side) / leg.ratio).min().unwrap_or(0);
                    let more = format!("rounding left it: spread {spread} would form {} more in its {step}", places(number, 4));
                    reasons.push([name, more]);
                }
            }
        }
        if reasons.is_empty() {
            reasons.push(["none".to_string(), format!("no spread of the file has a leg in {} {tier}", self.of)]);
        }
        reasons
    }

    fn pool(&self, leg: &Leg, long_side: Side) -> i64 {
        let of_tier = self.prompts.iter().zip(&self.unused).filter(|((_, tier), _)| *tier == leg.tier);
        of_tier.map(|(_, unused)| if leg.side == long_side { (*unused).max(0) } else { (-unused).max(0) }).sum()
    }

    /// A leg that could not give what the least number of spreads takes, in the words of the page.
    fn lacking(&self, leg: &Leg, long_side: Side) -> Option<String> {
        let pool = self.pool(leg, long_side);
        if leg.parts * pool / leg.ratio > 0 {
            return None;
        }
        let side = if leg.side == Side::A { "A" } else { "B" };
        let ratio = if leg.parts == 1 { leg.ratio.to_string() } else { places(leg.ratio, 1) };
        let (taken, of, tier) = (if leg.side == long_side { "long" } else { "short" }, self.of, leg.tier);
        let least = (1..).find(|least| leg.parts * least / leg.ratio > 0).unwrap_or(0);
        Some(match pool {
            0 => format!("{side} {of} {tier} x {ratio}, {taken}: nothing left"),
            _ => {
                let (pool, least) = (places(pool, 4), places(least, 4));
                format!("{side} {of} {tier} x {ratio}, {taken}: {pool} left, and 0.0001 of a spread takes {least}")
            }
        })
    }
}

/// A whole number of parts with as many places, in groups of three digits.
fn places(number: i64, places: u32) -> String {
    let (one, sign) = (10_u64.pow(places), if number < 0 { "-" } else { "" });
    let (mut whole, part) = (number.unsigned_abs() / one, number.unsigned_abs() % one);
    let mut groups = vec![];
    while whole >= 1000 {
        groups.push(format!(",{:03}", whole % 1000));
        whole /= 1000;
    }
    groups.reverse();
    format!("{sign}{whole}{}.{part:0width$}", groups.concat(), width = places as usize)
}

/// What the text answers for each book to whether anything still open could have been paired, where the independent program says the
/// same of a second run of the table over what is left.
pub fn answers(text: &str, account: &Account) -> Result<Vec<&'static str>, String> {
    let asked = text.lines().skip_while(|line| *line != "Could anything still open have been paired?").skip(1);
    let begins = |line: &&str| line.starts_with("  Contract ") || line.starts_with("  Between contracts");
    let told: Vec<&str> = asked.take_while(|line| !line.is_empty()).filter(begins).collect();
    let mut wanted: Vec<(String, &'static str)> = vec![];
    for contract in &account.contracts {
        let legs: Vec<Vec<Leg>> = contract.spreads.iter().map(|spread| spread.legs.clone()).collect();
        let tiers: Vec<i64> = contract.prompts.iter().map(|prompt| prompt.tier).collect();
        wanted.push((format!("  Contract {}: ", contract.number), answer(account, contract.number as u64, &tiers, &legs)));
    }
    if !account.entries.is_empty() {
        let legs: Vec<Vec<Leg>> = account.entries.iter().map(|entry| entry.legs()).collect();
        let tiers: Vec<i64> = account.contracts.iter().map(|contract| contract.number).collect();
        wanted.push(("  Between contracts: ".to_string(), answer(account, INTERCONTRACT, &tiers, &legs)));
    }
    equal("answers", told.len() as i128, wanted.len() as i128)?;
    for (line, (book, answer)) in told.iter().zip(&wanted) {
        if !line.starts_with(&format!("{book}{answer}")) {
            return Err(format!("'{line}' in place of '{book}{answer}'"));
        }
    }
    Ok(wanted.into_iter().map(|(_, answer)| answer).collect())
}

fn answer(account: &Account, question: u64, tiers: &[i64], legs: &[Vec<Leg>]) -> &'static str {
    let lines = book_of(account, question).map_or(vec![], |book| book.lines);
    let left: Vec<Net> = tiers.iter().zip(&lines).map(|(tier, line)| Net { tier: *tier, delta: line.unused }).collect();
    let again = steps(&left, legs).iter().flatten().any(|step| step.number.0 != 0);
    match (left.iter().any(|prompt| prompt.delta != Delta(0)), again) {
        (false, _) => "Nothing to pair.",
        (true, false) => "No.",
        (true, true) => "Only what rounding left.",
    }
}
