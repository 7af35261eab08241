//! What the figures and the books of an accepted account show.

use independent::book::{intercontract, interprompt, Book};
use independent::margin::{totals, twice_price_risk, Figures};
use independent::steps::Step;
use independent::units::{Amount, Delta, Spreads};
use independent::Account;

/// What may be seen in an account, and whether it is.
pub type Sight = (&'static str, bool);

pub fn figures(account: &Account, all: &[Figures]) -> Vec<Sight> {
    let any = |seen: fn(&Figures) -> bool| all.iter().any(seen);
    let risk = |of: &Figures| of.scanning_risk + of.interprompt_charge + of.prompt_charge;
    vec![
        ("an interprompt charge", any(|of| of.interprompt_charge > Amount(0))),
        ("a prompt charge", any(|of| of.prompt_charge > Amount(0))),
        ("a credit", any(|of| of.credit > Amount(0))),
        ("a credit above the risk", all.iter().any(|of| of.credit > risk(of))),
        (
            "a short option minimum above the risk",
            all.iter().any(|of| of.short_option_minimum > risk(of) - of.credit),
        ),
        ("a contract without prompts", account.contracts.iter().any(|of| of.prompts.is_empty())),
        ("sixteen contracts", account.contracts.len() == 16),
    ]
}

pub fn totals_of(account: &Account) -> Vec<Sight> {
    let all: Vec<_> = account.contracts.iter().map(totals).collect();
    let largest = |of: &[Amount; 16]| of.iter().max().copied().unwrap_or_default();
    let ties = |of: &[Amount; 16]| of.iter().filter(|total| **total == largest(of)).count() > 1;
    let moved = |of: &[Amount; 16]| of.iter().any(|total| *total != of[0]);
    let table = intercontract(account);
    let used = |place: usize| table.lines[place].used != Delta(0);
    let without = |place: usize| twice_price_risk(&all[place]) == Amount(0);
    vec![
        ("an active total below 0", all.iter().any(|of| largest(of) < Amount(0))),
        ("scenarios that tie", all.iter().any(|of| ties(of) && moved(of))),
        (
            "used between contracts without price risk",
            (0..all.len()).any(|place| used(place) && without(place)),
        ),
    ]
}

fn forms(step: &Step) -> bool {
    step.number > Spreads(0)
}

pub fn steps(account: &Account) -> Vec<Sight> {
    let books: Vec<Book> = account.contracts.iter().map(interprompt).collect();
    let spreads = || books.iter().flat_map(|book| &book.steps);
    let lines = || books.iter().flat_map(|book| &book.lines);
    let table = intercontract(account);
    let flat = (0..account.contracts.len()).any(|place| {
        table.lines[place].net == Delta(0)
            && books[place].lines.iter().any(|line| line.net != Delta(0))
    });
    vec![
        ("an interprompt spread formed", spreads().flatten().any(forms)),
        ("both steps of a spread formed", spreads().any(|of| of.iter().all(forms))),
        ("a spread of three legs formed", three_legs_formed(account, &books)),
        (
            "a prompt used in part",
            lines().any(|line| line.used != Delta(0) && line.unused != Delta(0)),
        ),
        ("an intercontract spread formed", table.steps.iter().flatten().any(forms)),
        ("an intercontract second step formed", table.steps.iter().any(|of| forms(&of[1]))),
        ("a contract flat over prompts that are not", flat),
        (
            "more takes than prompts and spreads",
            books.iter().any(|book| book.takes() > book.lines.len() + book.steps.len()),
        ),
        ("a table without a take", !account.entries.is_empty() && table.takes() == 0),
        ("a table with a take", table.takes() > 0),
    ]
}

fn three_legs_formed(account: &Account, books: &[Book]) -> bool {
    account.contracts.iter().zip(books).any(|(contract, book)| {
        let formed = |place: usize| book.steps[place].iter().any(forms);
        (0..contract.spreads.len())
            .any(|place| contract.spreads[place].legs.len() == 3 && formed(place))
    })
}
