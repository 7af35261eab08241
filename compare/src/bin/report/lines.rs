//! The lines that a page says: its tables, as `felgotany book --lines` would print them.

use crate::tables::{amount, number, Tables};

const TABLE: i128 = 16;

pub fn of(tables: &Tables) -> Result<String, String> {
    let mut lines = String::new();
    let mut total = String::new();
    for row in tables.rows("figures") {
        if row[0] == "total" {
            total = line("T", &[amount(&row[7])?]);
            continue;
        }
        let contract = contract(&row[0])?;
        let figures: Vec<i128> = row[2..].iter().map(|cell| amount(cell)).collect::<Result<_, _>>()?;
        lines += &line("C", &[&[contract, number(&row[1])?][..], &figures].concat());
        lines += &book(tables, contract, &format!("contract-{contract}"))?;
    }
    if !tables.rows("intercontract-prompts").is_empty() {
        lines += &book(tables, TABLE, "intercontract")?;
    }
    Ok(lines + &total)
}

fn line(letter: &str, numbers: &[i128]) -> String {
    let numbers: String = numbers.iter().map(|number| format!(" {number}")).collect();
    format!("{letter}{numbers}\n")
}

/// The number of a contract by its name.
fn contract(name: &str) -> Result<i128, String> {
    let name = name.strip_prefix("contract ").unwrap_or(name);
    number(name.split_once(", ").map_or(name, |(number, _)| number))
}

fn book(tables: &Tables, question: i128, name: &str) -> Result<String, String> {
    let mut lines = String::new();
    let mut prompts = vec![];
    for row in tables.rows(&format!("{name}-prompts")).into_iter().filter(|row| row[0] != "prompt charge") {
        let (which, numbers) = if question == TABLE {
            ([0, contract(&row[0])?], &row[1..4])
        } else {
            ([number(&row[0])?, number(&row[1])?], &row[2..5])
        };
        prompts.push(which);
        let place = prompts.len() as i128;
        let numbers: Vec<i128> = numbers.iter().map(|cell| number(cell)).collect::<Result<_, _>>()?;
        lines += &line("P", &[&[question, place, which[0], which[1]][..], &numbers].concat());
    }
    let mut spread: Option<Spread> = None;
    for row in tables.rows(&format!("{name}-paid")) {
        let first = row[0].as_str();
        if let Some(words) = first.strip_prefix("spread ") {
            lines += &spread.take().map_or(String::new(), |spread| spread.lines(question));
            spread = Some(Spread::of(words, row, question)?);
            continue;
        }
        let Some(spread) = spread.as_mut() else { return Err(format!("'{first}' stands before every spread")) };
        if first.starts_with("first step") || first.starts_with("second step") {
            spread.step = if first.starts_with("first") { 0 } else { 1 };
            spread.formed[spread.step] = number(&row[if question == TABLE { 3 } else { 4 }])?;
        } else if first.is_empty() {
            let which = if question == TABLE { [0, contract(&row[1])?] } else { [number(&row[1])?, number(&row[2])?] };
            let place = prompts.iter().position(|prompt| *prompt == which).ok_or("paid by a prompt that is not listed")?;
            let paid = number(&row[if question == TABLE { 2 } else { 3 }])?;
            spread.paid.push([spread.step as i128 + 1, place as i128 + 1, paid]);
        }
    }
    lines += &spread.map_or(String::new(), |spread| spread.lines(question));
    for row in tables.rows(&format!("{name}-touches")) {
        lines += &line("N", &[question, number(&row[0])?, number(&row[1])?]);
    }
    Ok(lines)
}

struct Spread {
    place: i128,
    legs: Vec<i128>,
    rate: i128,
    step: usize,
    formed: [i128; 2],
    paid: Vec<[i128; 3]>,
}

impl Spread {
    /// Of words such as '2: A tier 1 x 1, B tier 2 x 1', and the cell of the rate or the percent.
    fn of(words: &str, row: &[String], question: i128) -> Result<Spread, String> {
        let (place, legs) = words.split_once(": ").ok_or("a spread without legs")?;
        let mut numbers = vec![];
        for leg in legs.split(", ") {
            let [side, _, tier, _, ratio] = leg.split(' ').collect::<Vec<_>>()[..] else {
                return Err(format!("'{leg}' is no leg"));
            };
            numbers.extend([number(tier)?, if side == "A" { 1 } else { 2 }, number(ratio)?]);
        }
        let rate = if question == TABLE { number(&row[4])? } else { amount(&row[5])? };
        Ok(Spread { place: number(place)?, legs: numbers, rate, step: 0, formed: [0; 2], paid: vec![] })
    }

    fn lines(&self, question: i128) -> String {
        let head = [question, self.place, self.legs.len() as i128 / 3];
        let [first, second] = self.formed;
        let spread = line("S", &[&head[..], &self.legs, &[self.rate, first, second]].concat());
        self.paid.iter().fold(spread, |lines, paid| lines + &line("G", &[&[question, self.place][..], paid].concat()))
    }
}
