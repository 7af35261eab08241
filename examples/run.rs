//! run [-l NUMBERS] [-s BYTES] [FILE ..]: the figures of several account files, asked in one call. For each file `A` and its
//! place, counted from 0, then its figures or what is refused, as margin prints them; or what the whole run is refused for.
//! NUMBERS are lent for the figures, or as many as all places have. BYTES are said of the last file in place of its length.

use felgotany::{Outcome, MOST_FIGURES};

fn print_line(letter: char, numbers: &[i64]) {
    let numbers: String = numbers.iter().map(|number| format!(" {number}")).collect();
    println!("{letter}{numbers}");
}

fn print_refusal(outcome: Outcome) {
    println!("R {} {}", outcome.refusal, outcome.record);
}

/// The figures of an accepted account: as many as it needs, which its bytes say.
fn print_figures(account: &[u8], place: &[i64]) {
    if let Some((&total, contracts)) = place[..felgotany::figures_needed(account)].split_last() {
        contracts.chunks(8).for_each(|contract| print_line('C', contract));
        print_line('T', &[total]);
    }
}

fn print_run(accounts: &[u8], lengths: &[usize], figures: &[i64], outcomes: &[usize]) {
    let mut left = accounts;
    let outcomes = outcomes.chunks(2).map(|outcome| Outcome { refusal: outcome[0], record: outcome[1] });
    for (place, (&length, outcome)) in lengths.iter().zip(outcomes).enumerate() {
        let (account, after) = left.split_at(length);
        println!("A {place}");
        match outcome.refusal {
            0 => print_figures(account, &figures[MOST_FIGURES * place..]),
            _ => print_refusal(outcome),
        }
        left = after;
    }
}

fn main() -> Result<(), Box<dyn std::error::Error>> {
    let (mut accounts, mut lengths) = (vec![], vec![]);
    let (mut lent, mut said) = (None, None);
    let mut words = std::env::args().skip(1);
    while let Some(word) = words.next() {
        match &word[..] {
            "-l" => lent = words.next(),
            "-s" => said = words.next(),
            name => {
                let file = std::fs::read(name)?;
                lengths.push(file.len());
                accounts.extend(file);
            }
        }
    }
    if let (Some(said), Some(last)) = (said, lengths.last_mut()) {
        *last = said.parse()?;
    }
    let numbers = lent.map_or(Ok(MOST_FIGURES * lengths.len()), |lent| lent.parse())?;
    let mut figures = vec![0; numbers];
    let mut outcomes = vec![0; 2 * lengths.len()];
    let outcome = felgotany::run(&accounts, &lengths, &mut figures, &mut outcomes);
    match outcome.refusal {
        0 => print_run(&accounts, &lengths, &figures, &outcomes),
        _ => print_refusal(outcome),
    }
    Ok(())
}
