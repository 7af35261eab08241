//! bench [SEED]: accounts per second of the proved library, of the tuned program and of the plain one:
//! for the check, the figures, the figures in one call for a run of accounts, the figures with all books
//! of a file checked once, and of a file checked for each; and for the book of a contract with 32 prompts,
//! without spreads and with 32 of three legs, so that the difference is the spreads': their check and
//! their steps. Then the same of accounts as a desk has them, many prompts with rows on random days and
//! spreads, with one book and joined to a noon file: a few accounts again and again, and cold, one after
//! another of 2,000 different ones. `bench SEED desks` times these alone.

mod answers;
mod timing;

use bench::accounts::{self, Desk, CONTRACTS, DESKS, MIDDLE, ROWS, SPREADS};
use felgotany::TABLE;
use independent::format::{MOST_PROMPTS, MOST_SPREADS};
use timing::{joined_times, run_times, times, Question, Times};

const SIZES: [usize; 4] = [1, 10, 100, 640];
const CONVERTED: usize = 100;
const GENERATED: u64 = 5_000;
/// So many accounts of a desk are asked again and again, and so many, one after another.
const WARM: u64 = 8;
const COLD: u64 = 2_000;

fn main() {
    let seed = std::env::args().nth(1).and_then(|word| word.parse().ok()).unwrap_or(1);
    if std::env::args().nth(2).as_deref() != Some("desks") {
        sizes(seed);
        println!();
    }
    desks(seed);
}

const HEAD: &str =
    "| Accounts | Asked | Proved | Tuned | Plain | Proved to tuned | Proved to plain |\n|---|---|---|---|---|---|---|";

/// Accounts as a desk has them.
fn desks(seed: u64) {
    println!("{HEAD}");
    let asked = [
        ("check", Question::Check),
        ("figures", Question::Figures),
        ("all, checked once", Question::All),
    ];
    for desk in DESKS {
        let files = desk.accounts(seed, WARM);
        for (asked, question) in asked {
            print(desk.name, asked, times(&files, question));
        }
        print(desk.name, "book of contract 0", times(&files, Question::Book(0)));
        if desk.entries > 0 {
            print(desk.name, "book of the table", times(&files, Question::Book(TABLE)));
        }
    }
    for desk in [MIDDLE, CONTRACTS] {
        let name = format!("{}, joined", desk.name);
        let pairs = desk.pairs(seed, WARM);
        print(&name, "figures", joined_times(&pairs, None));
        print(&name, "book of contract 0", joined_times(&pairs, Some(0)));
    }
    let name = format!("{} different, cold", thousands(COLD as f64));
    let large = [ROWS, SPREADS, CONTRACTS].map(|desk: Desk| desk.accounts(seed, COLD / 3 + 1));
    let by_turns =
        (0..COLD as usize).map(|place| large[place % 3][place / 3].clone()).collect::<Vec<_>>();
    for (asked, question) in asked {
        print(&name, asked, times(&by_turns, question));
    }
}

/// Accounts of a size, and generated ones.
fn sizes(seed: u64) {
    let mut sets = vec![];
    for records in SIZES {
        let plural = if records == 1 { "" } else { "s" };
        sets.push((format!("{records} record{plural}"), accounts::accepted(seed, records)));
    }
    sets.push((
        format!("about {CONVERTED} records, in currencies"),
        accounts::converted(seed, CONVERTED),
    ));
    sets.push((
        format!("{} generated", thousands(GENERATED as f64)),
        accounts::generated(seed, GENERATED),
    ));

    println!("{HEAD}");
    let mut held = vec![];
    for (name, files) in &sets {
        let [_, _, once, each] = [
            ("check", Question::Check),
            ("figures", Question::Figures),
            ("all, checked once", Question::All),
            ("all, each checked", Question::Each),
        ]
        .map(|(asked, question)| {
            let times = times(files, question);
            print(name, asked, times);
            times
        });
        print(name, "figures, in one run", run_times(files));
        held.push((name, once, each));
    }
    for spreads in [0, MOST_SPREADS] {
        let name = format!("{MOST_PROMPTS} prompts, {spreads} spreads");
        print(&name, "book", times(&[accounts::table(spreads)], Question::Book(0)));
    }

    println!("\n| Files | Proved, checked once to each checked | Tuned | Plain |");
    println!("|---|---|---|---|");
    for (name, once, each) in held {
        let [proved, tuned, plain] =
            [each.proved / once.proved, each.tuned / once.tuned, each.plain / once.plain];
        println!("| {name} | {proved:.2} | {tuned:.2} | {plain:.2} |");
    }
}

fn print(name: &str, asked: &str, Times { proved, tuned, plain }: Times) {
    let [by_proved, by_tuned, by_plain] =
        [proved, tuned, plain].map(|seconds| thousands(1.0 / seconds));
    let (to_tuned, to_plain) = (tuned / proved, plain / proved);
    println!("| {name} | {asked} | {by_proved} | {by_tuned} | {by_plain} | {to_tuned:.2} | {to_plain:.2} |");
}

/// A whole number with a comma before every three digits.
fn thousands(number: f64) -> String {
    let digits = format!("{number:.0}");
    let mut groups: Vec<&str> = vec![];
    let mut rest = &digits[..];
    while rest.len() > 3 {
        let (front, group) = rest.split_at(rest.len() - 3);
        groups.push(group);
        rest = front;
    }
    groups.push(rest);
    groups.reverse();
    groups.join(",")
}
