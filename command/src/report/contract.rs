//! The part of a report that is about one contract: its margin, who paid and what is still open, its rows, and its credit.

use super::books::{self, delta, money, table_name};
use super::document::{self, none, Document, Kind, Part, Table};
use super::left::Open;
use super::subject::Subject;
use super::working::{OfContract, Row};
use crate::account::{Book, Contract, Prompt};
use crate::numbers::{decimal, grouped, rate};
use account_text::columns::word;
use account_text::wording::counted;
use independent::format::{CALL, FORWARD, PUT};

/// The part of a report that is about one contract.
pub fn of_contract(document: &mut Document, subject: &Subject, contract: &Contract, working: &OfContract, open: &[Open]) {
    let book = &contract.book;
    document.heading(2, subject.heading(working.number));
    document.parts.push(Part::Table(margin(contract, working)));
    who_paid(document, book, working, open);
    document.heading(3, "Rows and scanning risk");
    rows(document, subject, book, working);
    document.parts.push(Part::Table(totals(book, working)));
    document.heading(3, "Price risk and credit");
    document.say(price_risk(working));
    credits(document, subject, book, working);
}

/// Which prompt dates paid for each spread, the charge of each, and what is still open.
fn who_paid(document: &mut Document, book: &Book, working: &OfContract, open: &[Open]) {
    document.heading(3, "Who paid, and what is still open");
    if book.prompts.is_empty() {
        document.say("This contract has no prompt dates: nothing was paid, and nothing is open.");
        return document.parts.push(Part::Table(books::cost_table(book)));
    }
    match book.spreads.len() {
        0 => document.say("The file lists no interprompt spread for this contract. No prompt date paid for one."),
        _ => {
            document.say(books::LEGS);
            document.parts.push(Part::Table(books::paid_by_prompts(book, working)));
        }
    }
    document.parts.push(Part::Table(prompts(book, working)));
    let named = |number: i64| number.to_string();
    let caption = "Net delta of each prompt date, in lots: which spread took what, and what is still open";
    document.parts.push(Part::Picture(books::picture(book, caption, &named)));
    books::still_open(document, book, open, &named);
}

/// The margin of a contract: what it is made of, so that the column adds up.
pub fn margin(contract: &Contract, working: &OfContract) -> Table {
    let [_, _, scanning, interprompt, prompt, credit, minimum, margin] = contract.figures;
    let largest = working.totals[working.active - 1];
    let name = table_name(&contract.book, "margin");
    let mut table = Table::new(name, "Margin", &["'figure", "amount", "'how it comes about"]);
    let scanned = match largest < 0 {
        true => format!("the largest of the sixteen totals is below 0, {}: no scanning risk", working.said(largest)),
        false => format!("the largest of the sixteen totals, of scenario {}, the active one", working.active),
    };
    let mut line =
        |kind: Kind, figure: &str, amount: i64, how: String| table.row(kind, [figure.to_string(), working.money(amount), how]);
    line(Kind::Plain, "scanning risk", scanning, scanned);
    let spreads = counted(contract.book.spreads.len(), "interprompt spread");
    line(Kind::Plain, "interprompt charge", interprompt, format!("the charges of {spreads}"));
    let prompts = counted(contract.book.prompts.len(), "prompt date");
    line(Kind::Plain, "prompt charge", prompt, format!("the charges of {prompts}"));
    let credits = counted(working.credits.len(), "intercontract spread");
    line(Kind::Plain, "credit", -credit, format!("the credits from {credits}, taken off"));
    let sum = scanning + interprompt + prompt - credit;
    let floored = match sum < 0 {
        true => format!("these four added up are {}: not below 0", working.said(sum)),
        false => "these four added up".to_string(),
    };
    line(Kind::Sum, "risk", working.risk, floored);
    let lots = grouped(&working.short_lots.to_string());
    let short = format!("{lots} short lots of calls and puts x {}", working.said(working.short_option_rate));
    line(Kind::Plain, "short option minimum", minimum, short);
    let larger = if minimum > working.risk {
        "the minimum, which is larger than the risk"
    } else {
        "the risk, which is not below the minimum"
    };
    line(Kind::Sum, "margin", margin, larger.to_string());
    table
}

/// How many forwards, calls and puts there are.
pub fn classes(rows: &[Row]) -> String {
    let of = |class: i64, thing: &str| counted(rows.iter().filter(|row| row.class == class).count(), thing);
    format!("{}, {}, {}", of(FORWARD, "forward"), of(CALL, "call"), of(PUT, "put"))
}

/// The columns of rows, and those that stand before the amount where a row is in another currency than the margin's.
const ROWS: [&str; 9] =
    ["row", "'class", "prompt date", "strike", "lots", "delta", "lots x delta", "value of a tick", "loss in ticks"];
const CONVERTED: [&str; 3] = ["'currency", "in its currency", "rate"];

fn rows(document: &mut Document, subject: &Subject, book: &Book, working: &OfContract) {
    let OfContract { rows, active, .. } = working;
    if rows.is_empty() {
        return document.say("0 of 0 rows counted: this contract has no rows.");
    }
    let count = rows.len();
    let convert = rows.iter().any(|row| row.rate.is_some());
    let (converted, of_currency) = if convert { (", converted at its currency's rate", &CONVERTED[..]) } else { ("", &[][..]) };
    let caption = format!(
        "{count} of {count} rows counted ({}), with what each loses in scenario {active}: lots x value x loss{converted}",
        classes(rows)
    );
    let columns = [&ROWS[..], of_currency, &["amount"]].concat();
    let mut table = Table::new(table_name(book, "rows"), caption, &columns);
    for row in rows {
        let class = word("class", row.class).unwrap_or_default().to_string();
        let strike = if row.class == FORWARD { "-".to_string() } else { row.strike.to_string() };
        let per_lot = decimal(row.delta.into(), 4);
        let (lots, loss) = (grouped(&row.lots.to_string()), grouped(&row.loss.to_string()));
        let (net, amount) = (delta(row.net()), working.money(row.amount));
        let value = if row.rate.is_some() { money(row.value) } else { working.money(row.value) };
        let (place, day) = (row.place.to_string(), row.day.to_string());
        let mut cells = vec![place, class, day, strike, lots, per_lot, net, value, loss];
        if convert {
            let at = row.rate.map_or("-".to_string(), rate);
            cells.extend([subject.currency_of(row.currency), money(row.own), at]);
        }
        cells.push(amount);
        table.rows.push(document::Row { kind: Kind::Plain, cells });
    }
    let net = delta(rows.iter().map(Row::net).sum());
    let total = working.money(rows.iter().map(|row| row.amount).sum());
    let mut cells = vec![none(), "total".to_string(), none(), none(), none(), none(), net];
    cells.resize(columns.len() - 1, none());
    cells.push(total);
    table.rows.push(document::Row { kind: Kind::Sum, cells });
    document.parts.push(Part::Table(table));
}

fn totals(book: &Book, working: &OfContract) -> Table {
    let caption = "The sixteen totals: what all rows lose in each scenario";
    let mut table = Table::new(table_name(book, "totals"), caption, &["scenario", "total", "'"]);
    for (scenario, total) in (1..).zip(working.totals) {
        let mut what = vec![];
        if scenario == working.active {
            what.push("active: the largest total, and the first that is".to_string());
        }
        if scenario == working.paired {
            what.push(format!("paired with scenario {}", working.active));
        }
        let kind = if scenario == working.active { Kind::Marked } else { Kind::Plain };
        table.row(kind, [scenario.to_string(), working.money(total), what.join("; ")]);
    }
    table
}

/// Half of a number of hundredths, halves kept.
fn half(working: &OfContract, twice: i64) -> String {
    match twice % 2 {
        0 => working.said(twice / 2),
        _ => grouped(&decimal(i128::from(twice) * 5, 3)),
    }
}

fn price_risk(working: &OfContract) -> String {
    let OfContract { totals, active, paired, twice_price_risk, .. } = working;
    let twice = totals[active - 1] + totals[paired - 1] - totals[0] - totals[1];
    let below = if twice < 0 { format!("{}, which is below 0 and counts as ", half(working, twice)) } else { none() };
    format!(
        "Price risk: (active total {active} + its pair {paired}) / 2 - (total 1 + total 2) / 2 = ({} + {}) / 2 - ({} + {}) / 2 = {below}{}.",
        working.said(totals[active - 1]),
        working.said(totals[paired - 1]),
        working.said(totals[0]),
        working.said(totals[1]),
        half(working, *twice_price_risk)
    )
}

fn credits(document: &mut Document, subject: &Subject, book: &Book, working: &OfContract) {
    if working.credits.is_empty() {
        return document.say("No intercontract spread of the file names this contract: it earns no credit.");
    }
    document.say(match working.unit_price_risk {
        Some(unit) => format!(
            "Unit price risk: price risk / net delta = {} / {} = {} a lot, with four places. A credit is that x used x percent / 100.",
            half(working, working.twice_price_risk),
            delta(working.net.abs()),
            grouped(&decimal(unit, 4))
        ),
        None => "The net delta of this contract is 0: it earns no credit.".to_string(),
    });
    let columns = ["spread", "'with", "used, lots", "percent", "credit"];
    let mut table = Table::new(table_name(book, "credits"), "Credit from each intercontract spread", &columns);
    for credit in &working.credits {
        let (spread, percent) = (credit.spread.to_string(), credit.percent.to_string());
        table
            .row(Kind::Plain, [spread, subject.contract(credit.with), delta(credit.used), percent, working.money(credit.credit)]);
    }
    let sum = working.credits.iter().map(|credit| credit.credit).sum();
    table.row(Kind::Sum, [none(), "credit".to_string(), none(), none(), working.money(sum)]);
    document.parts.push(Part::Table(table));
}

/// The prompts of a contract: what of each is used and open, and its charge.
pub fn prompts(book: &Book, working: &OfContract) -> Table {
    let caption = "Prompt dates, and the charge of each: used x rate in spreads + open x outright rate";
    let columns = ["prompt date", "tier", "net, lots", "used, lots", "open, lots", "rate in spreads", "outright rate", "charge"];
    let mut table = Table::new(table_name(book, "prompts"), caption, &columns);
    for (prompt, of) in book.prompts.iter().zip(&working.prompt_charges) {
        let Prompt { day, tier, net, used, unused, .. } = *prompt;
        let [net, used, unused] = [net, used, unused].map(delta);
        let [in_spreads, outright] = [of.rate_in_spreads, of.rate_outright].map(|rate| working.money(rate));
        table.row(
            Kind::Plain,
            [day.to_string(), tier.to_string(), net, used, unused, in_spreads, outright, working.money(of.charge)],
        );
    }
    let sum = |of: &dyn Fn(&Prompt) -> i64| delta(book.prompts.iter().map(of).sum());
    let sums = [sum(&|prompt| prompt.net), sum(&|prompt| prompt.used), sum(&|prompt| prompt.unused)];
    let [net, used, unused] = sums;
    let charge = working.money(working.prompt_charges.iter().map(|of| of.charge).sum());
    table.row(Kind::Sum, ["prompt charge".to_string(), none(), net, used, unused, none(), none(), charge]);
    table
}
