//! The report of an account: the figures, a regulator's two questions, each contract, and the intercontract spreads.

use super::books::{self, delta, money, money_in, open_in_words, pairing, table_name};
use super::contract::of_contract;
use super::document::{none, Document, Kind, Part, Table};
use super::left::{open, Open};
use super::subject::Subject;
use super::working::{Differs, OfContract};
use super::Answered;
use crate::account::{adjusted, Account, Book, Prompt};
use crate::numbers::{decimal, rate};
use crate::page::FIGURES;
use account_text::wording::counted;

const PROVED: &str = "The figures, the delta books and who paid are answers of the proved library. The sixteen totals, the price risk, \
    the amounts of the rows and the single charges and credits are worked out again here from the same records. Each sum adds up to \
    the proved figure, or this report would not have been printed.";

/// What is proved of every accepted account, and the file of the project that states it.
const CLAIMS: [[&str; 2]; 5] = [
    [
        "The figures are those that the rules give, for every accepted account.",
        "crates/questions/specs/Demands.antt, crates/margin/specs/Figures.antt",
    ],
    ["No row is left out: the totals, net deltas and short lots are those of all rows.", "crates/margin/specs/Skipped.antt"],
    [
        "Who paid: at each prompt what the steps took adds up to what is used.",
        "crates/margin/specs/Uses.antt, crates/spread/specs/Uses.antt",
    ],
    ["No step could have formed more unless an earlier one had formed less.", "crates/spread/specs/Demand.antt"],
    [
        "With whole ratios: all spreads run again over what is left form nothing.",
        "crates/margin/specs/Unpaired.antt, crates/spread/specs/Again.antt",
    ],
];

pub fn report(subject: &Subject, answered: &Answered) -> Result<Document, Differs> {
    let Answered { account, working, .. } = answered;
    let mut document = Document::new(subject.title("Margin report"));
    subject.opening(&mut document, answered);
    if account.records == 0 {
        return Ok(document);
    }
    document.say(PROVED);
    document.parts.push(Part::Table(figures(subject, account)));
    rates(&mut document, subject, account);
    joined(&mut document, subject, answered);
    let contracts = account.contracts.iter().zip(&working.contracts);
    let open_of: Vec<Vec<Open>> = contracts.clone().map(|(contract, _)| open(&contract.book)).collect::<Result<_, _>>()?;
    let in_table = account.table.as_ref().map(|table| open(table)).transpose()?;
    answers(&mut document, subject, account, &open_of, in_table.as_deref());
    for ((contract, of), open) in contracts.zip(&open_of) {
        of_contract(&mut document, subject, contract, of, open);
    }
    if let (Some(table), Some(open)) = (&account.table, &in_table) {
        of_table(&mut document, subject, table, &working.contracts, open);
    }
    document.heading(2, "What is proved, and where it is stated");
    let mut claims = Table::new("claims", "Proved of every account that is accepted", &["'what", "'where"]);
    CLAIMS.iter().for_each(|claim| claims.row(Kind::Plain, claim.map(str::to_string)));
    document.parts.push(Part::Table(claims));
    Ok(document)
}

/// The report of an account that is refused.
pub fn refused(subject: &Subject, told: &str) -> Document {
    let mut document = Document::new(subject.title("Margin report"));
    document.say(format!("From {}.", subject.source));
    document.answer("What is the margin?", ["No figure was worked out: the account is refused.".to_string()]);
    document.heading(3, "What is refused");
    told.lines().for_each(|line| document.say(line.trim()));
    document
}

/// The figures of all contracts, and the total.
pub fn figures(subject: &Subject, account: &Account) -> Table {
    let names: Vec<&'static str> = ["'contract"].into_iter().chain(FIGURES[1..].iter().copied()).collect();
    let caption = format!("Figures, in {}", subject.currency());
    let mut table = Table::new("figures", caption, &names);
    for contract in &account.contracts {
        let [number, active, rest @ ..] = contract.figures;
        let [scanning, interprompt, prompt, credit, minimum, margin] = rest.map(|amount| money_in(contract.unit, amount));
        let cells = [subject.contract(number), active.to_string(), scanning, interprompt, prompt, credit, minimum, margin];
        table.row(Kind::Plain, cells);
    }
    let total = money(account.total);
    table.row(Kind::Sum, ["total".to_string(), none(), none(), none(), none(), none(), none(), total]);
    table
}

/// The rate of each currency, where there are any.
pub fn rates(document: &mut Document, subject: &Subject, account: &Account) {
    if account.rates.is_empty() {
        return;
    }
    let caption = format!("Currency rates: what 1 of the currency is in {}", subject.currency());
    let columns = ["'currency", "spot rate", "adjustment percent", "rate for losses", "rate for gains"];
    let mut table = Table::new("rates", caption, &columns);
    for of in &account.rates {
        let (spot, percent) = (decimal(of.spot.into(), 6), of.adjustment_percent.to_string());
        let [losses, gains] = [true, false].map(|loss| rate(adjusted(of, loss)));
        table.row(Kind::Plain, [subject.currency_of(of.currency), spot, percent, losses, gains]);
    }
    document.parts.push(Part::Table(table));
}

/// Which file supplied each contract, and the call.
pub fn joined(document: &mut Document, subject: &Subject, answered: &Answered) {
    if let Some(suppliers) = &answered.suppliers {
        let mut table =
            Table::new("supplied", "Which file supplied each contract", &["'contract", "'supplied by", "prompt dates"]);
        for (contract, supplier) in answered.account.contracts.iter().zip(suppliers) {
            let (number, prompts) = (contract.figures[0], contract.book.prompts.len());
            table.row(Kind::Plain, [subject.contract(number), supplier.to_string(), prompts.to_string()]);
        }
        document.parts.push(Part::Table(table));
    }
    if let Some(call) = &answered.call {
        let mut table = Table::new("call", "The call", &["'what", "amount"]);
        for (label, hundredths) in call.amounts() {
            table.row(Kind::Plain, [label.to_string(), money(hundredths)]);
        }
        let called = if call.call == 0 { "none".to_string() } else { money(call.call as i64) };
        table.row(Kind::Sum, ["call".to_string(), called]);
        document.parts.push(Part::Table(table));
        call.why_none().into_iter().for_each(|why| document.say(format!("There is no call: {why}.")));
    }
}

/// A regulator's two questions, answered in a sentence for each book.
fn answers(document: &mut Document, subject: &Subject, account: &Account, open_of: &[Vec<Open>], in_table: Option<&[Open]>) {
    let books = account.contracts.iter().map(|contract| &contract.book).zip(open_of.iter().map(Vec::as_slice));
    let books: Vec<(&Book, &[Open])> = books.chain(account.table.iter().zip(in_table)).collect();
    let named = |book: &Book| match book.question {
        felgotany::TABLE => "Between contracts".to_string(),
        contract => subject.heading(contract as i64),
    };
    let charged = account.contracts.iter().map(|contract| money_in(contract.unit, contract.figures[3]));
    let credited = money(account.contracts.iter().map(|contract| contract.figures[5]).sum());
    let came = charged.chain([credited]);
    let paid =
        books.iter().zip(came).map(|((book, _), came)| format!("{}: {}.", named(book), paid_in_words(book, came.trim_end())));
    document.answer("Which prompt dates paid for each spread?", paid);
    let paired =
        books.iter().map(|(book, open)| format!("{}: {} {}.", named(book), pairing(book, open).short, open_in_words(open)));
    document.answer(books::PAIRED_OTHERWISE, paired);
    document.say("Each answer stands with its table and its reasons below, contract by contract.");
}

/// How many spreads were formed, how many paid, and the charges or the credits that came of it.
fn paid_in_words(book: &Book, of_spreads: &str) -> String {
    let formed = book.spreads.iter().filter(|spread| spread.steps.iter().any(|step| step.formed != 0)).count();
    let paid = book.prompts.iter().filter(|prompt| prompt.used != 0).count();
    let (what, who, came) = match book.question {
        felgotany::TABLE => ("intercontract spread", "contract", "credited"),
        _ => ("spread", "prompt date", "charged"),
    };
    match (book.spreads.len(), formed) {
        (0, _) => "the file lists no spread".to_string(),
        (spreads, 0) => format!("0 of {} formed", counted(spreads, what)),
        (spreads, formed) => {
            let (spreads, who) = (counted(spreads, what), counted(paid, who));
            format!("{formed} of {spreads} formed, paid by {who}, {of_spreads} {came}")
        }
    }
}

/// The intercontract spreads, each contract a prompt of its own.
fn of_table(document: &mut Document, subject: &Subject, book: &Book, working: &[OfContract], open: &[Open]) {
    document.heading(2, "Intercontract spreads");
    document.say(
        "Each contract stands in these spreads with its net delta, before any of it is used between its prompt dates. In the first \
         step of a spread leg A pays with long lots and leg B with short ones, in the second the reverse.",
    );
    let named = |number: i64| subject.contract(number);
    document.parts.push(Part::Table(books::paid_by_contracts(book, working, &named)));
    let mut table = Table::new(table_name(book, "prompts"), "Contracts", &["'contract", "net, lots", "used, lots", "open, lots"]);
    for Prompt { tier, net, used, unused, .. } in &book.prompts {
        table.row(Kind::Plain, [subject.contract(*tier), delta(*net), delta(*used), delta(*unused)]);
    }
    document.parts.push(Part::Table(table));
    let caption = "Net delta of each contract, in lots: which spread took what, and what is still open";
    let short = |number: i64| format!("contract {number}");
    document.parts.push(Part::Picture(books::picture(book, caption, &short)));
    books::still_open(document, book, open, &named);
}
