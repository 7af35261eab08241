//! The parts of a report that show a delta book: what was paid for each spread, the picture, and what is still open.

use super::document::{none, Document, Kind, Part, Row, Table};
use super::left::{has_tenths, unlisted_pairs, Lacking, Open, Taker};
use super::picture::{Bar, Picture, Piece};
use super::working::OfContract;
use crate::account::{Book, Leg, Prompt, Spread};
use crate::numbers::{amount, amount_in, decimal, grouped, lots, tenths};
use felgotany::TABLE;
use independent::format::SIDE_A;

pub const PAIRED_OTHERWISE: &str = "Could anything still open have been paired?";

/// How a spread is read.
pub const LEGS: &str = "A leg has a side, a tier and a ratio: A tier 1 x 2 pays 2 lots of tier 1 for each spread. In the first step of a \
    spread its legs A pay with long lots and its legs B with short ones, in the second the reverse; the earliest prompt date pays first. \
    The spreads are formed in the order of the file.";

/// An amount of several contracts as the report writes it.
pub fn money(hundredths: i64) -> String {
    grouped(&amount(hundredths))
}

/// An amount of a contract with this unit, for a column of amounts.
pub fn money_in(unit: i64, hundredths: i64) -> String {
    grouped(&amount_in(unit, hundredths))
}

/// Lots or spreads as the report writes them.
pub fn delta(ten_thousandths: i64) -> String {
    grouped(&lots(ten_thousandths))
}

/// What a table of a book is called in the page.
pub fn table_name(book: &Book, of: &str) -> String {
    match book.question {
        TABLE => format!("intercontract-{of}"),
        contract => format!("contract-{contract}-{of}"),
    }
}

fn leg_in_words(question: usize, leg: &Leg) -> String {
    let side = if leg.side == SIDE_A { "A" } else { "B" };
    let ratio = if leg.tenths { tenths(leg.ratio) } else { leg.ratio.to_string() };
    format!("{side} {} x {ratio}", tier_in_words(question, leg.tier))
}

fn tier_in_words(question: usize, tier: i64) -> String {
    let of = if question == TABLE { "contract" } else { "tier" };
    format!("{of} {tier}")
}

pub fn spread_in_words(question: usize, spread: &Spread) -> String {
    let legs: Vec<String> = spread.legs.iter().map(|leg| leg_in_words(question, leg)).collect();
    legs.join(", ")
}

/// The two steps of a spread.
pub const DIRECTIONS: [&str; 2] = ["first step, A long and B short", "second step, A short and B long"];

/// Which prompt dates paid for each interprompt spread, and what it was charged.
pub fn paid_by_prompts(book: &Book, working: &OfContract) -> Table {
    let columns = ["'spread", "paid by prompt date", "tier", "paid, lots", "formed, spreads", "rate", "charge"];
    let caption = "Which prompt dates paid for each spread";
    let mut table = Table::new(table_name(book, "paid"), caption, &columns);
    for (spread, charge) in book.spreads.iter().zip(&working.spread_charges) {
        let formed = spread.steps.iter().map(|step| step.formed).sum();
        let words = format!("spread {}: {}", spread.place, spread_in_words(book.question, spread));
        table.row(Kind::Head, [words, none(), none(), none(), delta(formed), working.money(spread.rate), working.money(*charge)]);
        for (name, step) in DIRECTIONS.iter().zip(&spread.steps).filter(|(_, step)| step.formed != 0) {
            table.row(Kind::Plain, [name.to_string(), none(), none(), none(), delta(step.formed), none(), none()]);
            for (prompt, taken) in book.prompts.iter().zip(&step.taken).filter(|(_, taken)| **taken != 0) {
                let Prompt { day, tier, .. } = prompt;
                let who = [format!("{day}"), format!("{tier}")];
                table.row(Kind::Plain, [none(), who[0].clone(), who[1].clone(), delta(*taken), none(), none(), none()]);
            }
        }
    }
    let sum = working.spread_charges.iter().sum();
    table.row(Kind::Sum, ["interprompt charge".to_string(), none(), none(), none(), none(), none(), working.money(sum)]);
    table
}

/// Which contracts paid for each intercontract spread, and what each earned.
pub fn paid_by_contracts(book: &Book, working: &[OfContract], named: &dyn Fn(i64) -> String) -> Table {
    let columns = ["'spread", "'paid by", "paid, lots", "formed, spreads", "percent", "credit"];
    let mut table = Table::new(table_name(book, "paid"), "Which contracts paid for each intercontract spread", &columns);
    let credits = || working.iter().flat_map(|of| of.credits.iter().map(move |credit| (of, credit)));
    for spread in &book.spreads {
        let earned = credits().filter(|(_, credit)| credit.spread == spread.place).map(|(_, credit)| credit.credit).sum();
        let formed = spread.steps.iter().map(|step| step.formed).sum();
        let words = format!("spread {}: {}", spread.place, spread_in_words(book.question, spread));
        table.row(Kind::Head, [words, none(), none(), delta(formed), spread.rate.to_string(), money(earned)]);
        for (name, step) in DIRECTIONS.iter().zip(&spread.steps).filter(|(_, step)| step.formed != 0) {
            table.row(Kind::Plain, [name.to_string(), none(), none(), delta(step.formed), none(), none()]);
            for (prompt, taken) in book.prompts.iter().zip(&step.taken).filter(|(_, taken)| **taken != 0) {
                let of = credits().find(|(of, credit)| of.number == prompt.tier && credit.spread == spread.place);
                let earned = of.map_or(none(), |(of, credit)| of.money(credit.credit));
                table.row(Kind::Plain, [none(), named(prompt.tier), delta(*taken), none(), none(), earned]);
            }
        }
    }
    let sum = credits().map(|(_, credit)| credit.credit).sum();
    table.row(Kind::Sum, ["credits of all contracts".to_string(), none(), none(), none(), none(), money(sum)]);
    table
}

pub fn picture(book: &Book, caption: &str, named: &dyn Fn(i64) -> String) -> Picture {
    let bar = |(at, prompt): (usize, &Prompt)| {
        let took = |spread: &Spread| {
            let lots: i64 = spread.steps.iter().map(|step| step.taken[at].abs()).sum();
            Piece { spread: Some(spread.place), lots }
        };
        let open = Piece { spread: None, lots: prompt.unused.abs() };
        let parts = book.spreads.iter().map(took).chain([open]).filter(|piece| piece.lots != 0).collect();
        let (group, name) = match book.question {
            TABLE => ("contracts".to_string(), named(prompt.tier)),
            _ => (format!("tier {}", prompt.tier), prompt.day.to_string()),
        };
        Bar { group, name, net: prompt.net, parts }
    };
    let formed = book.spreads.iter().filter(|spread| spread.steps.iter().any(|step| step.formed != 0));
    let spreads = formed.map(|spread| (spread.place, spread_in_words(book.question, spread))).collect();
    Picture { caption: caption.to_string(), bars: book.prompts.iter().enumerate().map(bar).collect(), spreads }
}

/// Long and short lots that are still open, in words.
pub fn open_in_words(open: &[Open]) -> String {
    let lots = |sign: i64| -> i64 { open.iter().map(|open| (sign * open.prompt.unused).max(0)).sum() };
    match (lots(1), lots(-1)) {
        (0, 0) => "No lots are still open".to_string(),
        (long, 0) => format!("{} lots long and none short are still open", delta(long)),
        (0, short) => format!("{} lots short and none long are still open", delta(short)),
        (long, short) => format!("{} lots long and {} lots short are still open", delta(long), delta(short)),
    }
}

/// The answer for one book: in a sentence, and why.
pub struct Pairing {
    pub short: &'static str,
    pub why: String,
}

/// "Could anything still open have been paired?", answered for a book.
pub fn pairing(book: &Book, open: &[Open]) -> Pairing {
    let of_the_file = if book.question == TABLE { "intercontract spread" } else { "spread of this contract" };
    if open.is_empty() {
        let why = match book.prompts.iter().any(|prompt| prompt.net != 0) {
            true => "Nothing is still open: what was long or short is used, to the last ten-thousandth of a lot.",
            false => "Nothing is open: no prompt has a net delta.",
        };
        return Pairing { short: "Nothing to pair.", why: why.to_string() };
    }
    let open_lots = open_in_words(open);
    if book.spreads.is_empty() {
        let why = format!("{open_lots}. The file lists no {of_the_file}, so no spread of the file pairs them.");
        return Pairing { short: "No.", why };
    }
    let because =
        "For each one still open the table below names every spread that could take it, and the leg that has nothing left.";
    let order = "A step could have formed more only if an earlier one had formed less, and the file's order decides.";
    let reasons = format!("{}{because} {order}", unlisted_in_words(book, open));
    if !has_tenths(book) {
        let proved = "Run all the spreads again, in the file's order, over what is left, and every step forms nothing: \
                      that is proved for every accepted account.";
        return Pairing { short: "No.", why: format!("{open_lots}. {proved} {reasons}") };
    }
    let rounding = "Ratios of these spreads are in tenths. What such a step takes is rounded to a ten-thousandth of a lot, so a \
                    little can be left that a second run would pair; the rules have no second run.";
    let again: Vec<String> = forming(open).iter().map(|taker| forming_in_words(taker)).collect();
    match again[..] {
        [] => {
            let none = "Worked out here from what is left: no step would form anything.";
            Pairing { short: "No.", why: format!("{open_lots}. {rounding} {none} {reasons}") }
        }
        _ => {
            let again = again.join("; ");
            Pairing { short: "Only what rounding left.", why: format!("{open_lots}. {rounding} Here: {again}. {reasons}") }
        }
    }
}

/// The long and the short lots that no spread of the file has legs for.
fn unlisted_in_words(book: &Book, open: &[Open]) -> String {
    let tier = |tier: i64| tier_in_words(book.question, tier);
    let pairs: Vec<String> = unlisted_pairs(book, open)
        .iter()
        .map(|(long, short)| format!("{} long with {} short", tier(*long), tier(*short)))
        .collect();
    match pairs.is_empty() {
        true => String::new(),
        false => format!("No spread of the file pairs {}. ", pairs.join(", ")),
    }
}

/// The steps that would form something of what is left, each once.
fn forming<'a, 'b>(open: &'b [Open<'a>]) -> Vec<&'b Taker<'a>> {
    let mut found: Vec<&Taker> = vec![];
    for taker in open.iter().flat_map(|open| &open.takers).filter(|taker| taker.forms != 0) {
        if !found.iter().any(|other| (other.spread.place, other.step) == (taker.spread.place, taker.step)) {
            found.push(taker);
        }
    }
    found
}

fn forming_in_words(taker: &Taker) -> String {
    let forms = grouped(&decimal(taker.forms, 4));
    format!("spread {} would form {forms} more in its {}", taker.spread.place, step_name(taker.step))
}

fn step_name(step: usize) -> &'static str {
    ["first step", "second step"][step]
}

/// Each prompt that is still open, each spread that could take it, and which of its legs has nothing left.
pub fn open_table(book: &Book, open: &[Open], named: &dyn Fn(i64) -> String) -> Table {
    let which: &[&str] = if book.question == TABLE { &["'contract"] } else { &["prompt date", "tier"] };
    let columns = [which, &["still open, lots", "'spread that could take it", "'why it takes no more"]].concat();
    let mut table = Table::new(table_name(book, "open"), "Still open, and why", &columns);
    for Open { prompt, takers } in open {
        let mut who = match book.question {
            TABLE => vec![named(prompt.tier)],
            _ => vec![prompt.day.to_string(), prompt.tier.to_string()],
        };
        who.push(delta(prompt.unused));
        let mut rows: Vec<[String; 2]> = takers.iter().flat_map(|taker| taker_rows(book.question, taker)).collect();
        if rows.is_empty() {
            let tier = tier_in_words(book.question, prompt.tier);
            rows.push(["none".to_string(), format!("no spread of the file has a leg in {tier}")]);
        }
        for row in rows {
            table.rows.push(Row { kind: Kind::Plain, cells: [&who[..], &row].concat() });
            who.iter_mut().for_each(String::clear);
        }
    }
    table
}

fn taker_rows(question: usize, taker: &Taker) -> Vec<[String; 2]> {
    let mut name = format!("spread {}, {}", taker.spread.place, step_name(taker.step));
    if taker.lacking.is_empty() {
        return vec![[name, format!("rounding left it: {}", forming_in_words(taker))]];
    }
    let row = |lacking: &Lacking| [std::mem::take(&mut name), lacking_in_words(question, lacking)];
    taker.lacking.iter().map(row).collect()
}

fn lacking_in_words(question: usize, lacking: &Lacking) -> String {
    let side = if lacking.long { "long" } else { "short" };
    let leg = format!("{}, {side}", leg_in_words(question, lacking.leg));
    let places = |number: i128| grouped(&decimal(number, 4));
    match lacking.left {
        0 => format!("{leg}: nothing left"),
        left => format!("{leg}: {} left, and 0.0001 of a spread takes {}", places(left), places(lacking.least)),
    }
}

/// How often some step took of some prompt, beside the most that a book with so many prompts and legs can cost.
pub fn cost_table(book: &Book) -> Table {
    let columns = ["takes", "most for its prompts and legs"];
    let mut table =
        Table::new(table_name(book, "touches"), "What the book costs to work out: how often a step took of a prompt", &columns);
    table.row(Kind::Plain, [book.touches.to_string(), book.most_touches().to_string()]);
    table
}

/// The answer, the table of what is still open, and what the book costs.
pub fn still_open(document: &mut Document, book: &Book, open: &[Open], named: &dyn Fn(i64) -> String) {
    let Pairing { short, why } = pairing(book, open);
    let answer = if open.is_empty() { why } else { format!("{short} {why}") };
    document.answer(PAIRED_OTHERWISE, [answer]);
    if !open.is_empty() && !book.spreads.is_empty() {
        document.parts.push(Part::Table(open_table(book, open, named)));
    }
    document.parts.push(Part::Table(cost_table(book)));
}
