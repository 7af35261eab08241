//! The lines for other programs: a letter, then numbers as the library gives them. docs/PROGRAMS.md has each line.

use crate::account::{Account, Book, Prompt, Spread};
use felgotany::PromptPlace;

fn line(letter: char, numbers: &[i64]) -> String {
    let numbers: String = numbers.iter().map(|number| format!(" {number}")).collect();
    format!("{letter}{numbers}\n")
}

pub fn figures(account: &Account) -> String {
    let contracts = account.contracts.iter().map(|contract| line('C', &contract.figures));
    contracts.chain([total(account)]).collect()
}

/// The figures and all the books.
pub fn account(account: &Account) -> String {
    let contract = |contract: &crate::account::Contract| line('C', &contract.figures) + &book(&contract.book);
    let contracts = account.contracts.iter().map(contract);
    contracts.chain(account.table.iter().map(book)).chain([total(account)]).collect()
}

fn total(account: &Account) -> String {
    line('T', &[account.total])
}

pub fn book(book: &Book) -> String {
    let question = book.question as i64;
    let prompts = book.prompts.iter().map(|prompt| prompt_line(question, prompt));
    let spreads = book.spreads.iter().map(|spread| spread_lines(question, spread));
    let touches = line('N', &[question, book.touches, book.most_touches() as i64]);
    prompts.chain(spreads).chain([touches]).collect()
}

fn prompt_line(question: i64, prompt: &Prompt) -> String {
    let Prompt { place, day, tier, net, used, unused } = *prompt;
    line('P', &[question, place as i64, day, tier, net, used, unused])
}

/// A spread, and under it what each step takes of which prompt.
fn spread_lines(question: i64, spread: &Spread) -> String {
    let place = spread.place as i64;
    let mut numbers = vec![question, place, spread.legs.len() as i64];
    numbers.extend(spread.legs.iter().flat_map(|leg| [leg.tier, leg.side, leg.ratio]));
    numbers.push(spread.rate);
    numbers.extend(spread.steps.iter().map(|step| step.formed));
    let mut lines = line('S', &numbers);
    for (step, of_step) in (1..).zip(&spread.steps) {
        for (prompt, &amount) in (1..).zip(&of_step.taken).filter(|(_, amount)| **amount != 0) {
            lines += &line('G', &[question, place, step, prompt, amount]);
        }
    }
    lines
}

/// Which file supplies a contract, and where its prompts stand there.
pub fn supplied(contract: i64, place: PromptPlace) -> String {
    line('F', &[contract, place.file as i64, place.first as i64, place.records as i64])
}

pub fn call(amount: u64) -> String {
    format!("L {amount}\n")
}

/// The committee's numbers, in the library's order.
pub fn committee(numbers: &[i64]) -> String {
    line('K', numbers)
}

/// What is said of a list, as the library numbers it, and the step.
pub fn judged(verdict: usize, step: usize) -> String {
    line('J', &[verdict as i64, step as i64])
}
