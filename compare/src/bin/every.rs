//! every FILE NOON: what compare/every.c prints, as the independent program has it. The constants are the library's own: the
//! longest answers of accounts at their limits, the last question that is answered, and the fewest numbers that all questions
//! at once are not refused for.

use compare::numbered;
use felgotany::Outcome;
use independent::committee::{self, NUMBERS};
use independent::joined::{self, Cover};
use independent::list::{judge, judge_joined, List, Verdict};
use independent::entered::{self, Entered};
use independent::margin;
use independent::screen::{self, Limit};
use independent::ticket::Kept;
use independent::units::Amount;
use independent::{held_book, held_figures, Account, PairRefusal, Refusal};
use std::fmt::Write;

/// The number that stands in lent memory before.
const BEFORE: i64 = 7;
/// One question past the last that an account may answer.
const QUESTIONS: std::ops::RangeInclusive<u64> = 0..=17;
const BOOKS: std::ops::RangeInclusive<u64> = 0..=16;

fn main() -> Result<(), Box<dyn std::error::Error>> {
    let words: Vec<String> = std::env::args().skip(1).collect();
    let [file, noon] = &words[..] else { return Err("usage: every FILE NOON".into()) };
    let (file, noon) = (std::fs::read(file)?, std::fs::read(noon)?);
    let [figures, book, uses, table, books, all_uses, accounts, numbers] = constants();
    let mut out = format!("constants {figures} {book} {uses} {table} {books} {all_uses} {accounts} {numbers}\n");
    let checked = independent::check(&file);
    ask(&mut out, &checked);
    for fewer in [[0, 0, 0], [1, 0, 0], [0, 1, 0], [0, 0, 1]] {
        ask_all(&mut out, &checked, fewer);
    }
    ask_joined(&mut out, &file, &noon, [figures, book, uses]);
    for fewer in [0, 1] {
        ask_joined_all(&mut out, [&file, &noon], [book, uses], fewer);
    }
    ask_run(&mut out, &file, &noon, figures);
    ask_committee(&mut out, &file, &noon);
    ask_lists(&mut out, &file, &noon);
    for (room, more) in [(96, 0), (95, 0), (192, 193)] {
        ask_screen(&mut out, &file, room, file.len() as u64 + more);
    }
    ask_tickets(&mut out, &file);
    if file.len() % 96 == 0 {
        ask_write(&mut out, &file, file.len() + 5);
        ask_write(&mut out, &file, file.len().saturating_sub(1));
    }
    print!("{out}");
    Ok(())
}

/// An account with sixteen contracts, and one with a contract of 32 prompts and 32 spreads.
fn at_the_limits() -> [Vec<u8>; 2] {
    let record = |bytes: &[u8]| [bytes, &vec![0; 96 - bytes.len()]].concat();
    let contracts = (0..16).flat_map(|number| record(&[1, number])).collect();
    let prompts = (1..=32).flat_map(|day| record(&[2, 0, 1, 0, day]));
    let spreads = (0..32).flat_map(|_| record(&[4, 0, 2, 0, 0, 0, 0, 0, 1, 1, 1, 0, 1, 2, 1, 0]));
    [contracts, record(&[1, 0]).into_iter().chain(prompts).chain(spreads).collect()]
}

fn constants() -> [usize; 8] {
    let [contracts, full] = at_the_limits();
    let table = (0..100).rev().find(|&question| felgotany::book(&[], question, &mut [0]).refusal == 0).unwrap_or(0);
    let all = |books: usize, uses: usize| felgotany::all(&full, &mut [0; 9], &mut vec![0; books], &mut vec![0; uses]);
    let least = |refused: &dyn Fn(usize) -> bool, most: usize| {
        let (mut low, mut high) = (0, most);
        while low < high {
            let middle = (low + high) / 2;
            (low, high) = if refused(middle) { (middle + 1, high) } else { (low, middle) };
        }
        low
    };
    [
        felgotany::figures_needed(&contracts),
        felgotany::book_needed(&full, 0),
        felgotany::uses_needed(&full, 0),
        table,
        least(&|numbers| all(numbers, 0).books.refusal != 0, 100_000),
        least(&|numbers| all(0, numbers).uses.refusal != 0, 100_000),
        least(&|count| felgotany::committee(&[], &vec![0; count + 1], &mut []).refusal != 19, 1_000),
        least(&|numbers| felgotany::committee(&[], &[], &mut vec![0; numbers]).refusal != 0, 1_000),
    ]
}

fn told(refusal: &Refusal) -> Outcome {
    Outcome { refusal: refusal.number.into(), record: refusal.record }
}

const ACCEPTED: Outcome = Outcome { refusal: 0, record: 0 };

fn say(out: &mut String, word: &str, question: u64, Outcome { refusal, record }: Outcome) {
    writeln!(out, "{word} {question} refusal {refusal} record {record}").unwrap();
}

fn say_pair<T>(out: &mut String, word: &str, question: u64, answer: &Result<T, PairRefusal>) {
    let (file, number, record) = answer.as_ref().map_or_else(|told| (told.file, told.number, told.record), |_| (0, 0, 0));
    writeln!(out, "{word} {question} file {file} refusal {number} record {record}").unwrap();
}

fn list(out: &mut String, word: &str, question: u64, numbers: &[i64]) {
    let listed: String = numbers.iter().map(|number| format!(" {number}")).collect();
    writeln!(out, "{word} {question}{listed}").unwrap();
}

/// Each question by itself: its outcome and its numbers, none where it is refused.
fn ask(out: &mut String, checked: &Result<Account, Refusal>) {
    let account = checked.as_ref().map_err(told);
    say(out, "check", 0, account.as_ref().err().copied().unwrap_or(ACCEPTED));
    answer(out, "figures", 0, account.map(held_figures));
    for question in QUESTIONS {
        let book = || account.and_then(|account| held_book(account, question).map_err(|refusal| told(&refusal)));
        answer(out, "book", question, book().map(|book| book.numbers()));
        answer(out, "uses", question, book().map(|book| book.uses()));
    }
}

fn answer(out: &mut String, word: &str, question: u64, answer: Result<Vec<i64>, Outcome>) {
    say(out, word, question, answer.as_ref().err().copied().unwrap_or(ACCEPTED));
    list(out, word, question, &answer.unwrap_or_default());
}

/// All at once, with so many numbers fewer lent for the figures, the books and the uses.
fn ask_all(out: &mut String, checked: &Result<Account, Refusal>, fewer: [usize; 3]) {
    let outcome = |fewer: usize| match checked {
        Err(refusal) => told(refusal),
        Ok(account) if fewer > 0 => Outcome { refusal: 10, record: account.records },
        Ok(_) => ACCEPTED,
    };
    let [figures, books, uses] = fewer.map(outcome);
    say(out, "all figures", 0, figures);
    say(out, "all books", 0, books);
    say(out, "all uses", 0, uses);
    let numbers = checked.as_ref().map_or(vec![], held_figures);
    let lent = numbers.len().saturating_sub(fewer[0]);
    list(out, "all figures", 0, if fewer[0] == 0 { &numbers } else { &[BEFORE; 129][..lent] });
    for question in BOOKS {
        let book = || checked.as_ref().ok().and_then(|account| held_book(account, question).ok());
        if books.refusal == 0 {
            list(out, "all book", question, &book().map_or(vec![], |book| book.numbers()));
        }
        if uses.refusal == 0 {
            list(out, "all uses", question, &book().map_or(vec![], |book| book.uses()));
        }
    }
}

/// The questions to a pair, with every lent number afterwards; what one answer leaves is lent for the next of its sort.
fn ask_joined(out: &mut String, morning: &[u8], noon: &[u8], [figures, book, uses]: [usize; 3]) {
    let [mut figures, mut books, mut all_uses] = [figures, book, uses].map(|numbers| vec![BEFORE; numbers]);
    say_pair(out, "joined figures", 0, &joined::figures(morning, noon, &mut figures));
    list(out, "joined figures", 0, &figures);
    for question in QUESTIONS {
        let part = joined::prompts(morning, noon, question);
        let joined::Part { file, first, records } = part;
        writeln!(out, "joined prompts {question} file {file} first {first} records {records}").unwrap();
        say_pair(out, "joined book", question, &joined::book(morning, noon, question, &mut books));
        list(out, "joined book", question, &books);
        say_pair(out, "joined uses", question, &joined::uses(morning, noon, question, &mut all_uses));
        list(out, "joined uses", question, &all_uses);
    }
    let [needed_figures, ..] = needed(morning, noon, 0);
    writeln!(out, "joined figures needed {needed_figures}").unwrap();
    for question in QUESTIONS {
        let [_, book, uses] = needed(morning, noon, question);
        writeln!(out, "joined needed {question} book {book} uses {uses}").unwrap();
    }
    let calls = [[0, 0, 0], [0, 5, 0], [5, 0, 0], [0, 0, 5], [1, 1_000_000_000_000_000, 2], [-1, 0, 0], [0, 0, -1]];
    for (place, amounts) in (0..).zip(calls) {
        let [last_call, threshold, collateral] = amounts.map(Amount);
        let called = joined::call(morning, noon, Cover { last_call, threshold, collateral });
        say_pair(out, "call", place, &called);
        list(out, "call", place, &[called.map_or(0, |call| call.0)]);
    }
}

/// How many numbers the figures, the book and the uses of a question have, 0 where they are refused.
fn needed(morning: &[u8], noon: &[u8], question: u64) -> [usize; 3] {
    let mut lent = vec![BEFORE; 4096];
    let asked = [
        joined::figures(morning, noon, &mut lent),
        joined::book(morning, noon, question, &mut lent),
        joined::uses(morning, noon, question, &mut lent),
    ];
    asked.map(|written| written.unwrap_or(0))
}

/// All at once of a pair, with every lent number afterwards; with a number fewer lent for each of the three all are refused.
fn ask_joined_all(out: &mut String, [morning, noon]: [&[u8]; 2], [book, uses]: [usize; 2], fewer: usize) {
    let account = joined::account(morning, noon);
    let numbers = account.as_ref().map_or(vec![], held_figures);
    let lent = [numbers.len(), book * BOOKS.count(), uses * BOOKS.count()].map(|numbers| numbers.saturating_sub(fewer));
    let [mut figures, mut books, mut all_uses] = lent.map(|numbers| vec![BEFORE; numbers]);
    let answer = account.and_then(|account| match fewer {
        0 => Ok(account),
        _ => Err(PairRefusal { file: 0, number: 10, record: account.records }),
    });
    if let Ok(account) = &answer {
        put(&mut figures, &numbers);
        for (place, question) in BOOKS.enumerate() {
            if let Ok(held) = held_book(account, question) {
                put(&mut books[book * place..], &held.numbers());
                put(&mut all_uses[uses * place..], &held.uses());
            }
        }
    }
    for word in ["joined all figures", "joined all books", "joined all uses"] {
        say_pair(out, word, 0, &answer);
    }
    list(out, "joined all figures", 0, &figures);
    list(out, "joined all books", 0, &books);
    list(out, "joined all uses", 0, &all_uses);
}

fn put(lent: &mut [i64], numbers: &[i64]) {
    lent[..numbers.len()].copy_from_slice(numbers);
}

/// A run of both files, with every lent number afterwards; with a number too few lent nothing is written.
fn ask_run(out: &mut String, file: &[u8], noon: &[u8], places: usize) {
    let answers = [file, noon].map(|file| independent::check(file).map(|account| held_figures(&account)));
    let outcomes: Vec<String> = answers
        .iter()
        .map(|answer| answer.as_ref().map_or_else(told, |_| ACCEPTED))
        .map(|Outcome { refusal, record }| format!(" {refusal} {record}"))
        .collect();
    let mut lent = vec![BEFORE; 2 * places];
    for (place, answer) in answers.iter().enumerate() {
        for (number, figure) in lent[places * place..].iter_mut().zip(answer.as_ref().unwrap_or(&vec![])) {
            *number = *figure;
        }
    }
    say(out, "run", 0, ACCEPTED);
    writeln!(out, "run 0 outcomes{}", outcomes.concat()).unwrap();
    list(out, "run", 0, &lent);
    say(out, "run", 1, Outcome { refusal: 10, record: 0 });
    writeln!(out, "run 1 outcomes 7 7 7 7").unwrap();
    list(out, "run", 1, &vec![BEFORE; 2 * places - 1]);
}

/// The committee's figures of both files, with a number too few lent, with as many accounts as there may be and with one more.
fn ask_committee(out: &mut String, file: &[u8], noon: &[u8]) {
    let most = committee::MOST_ACCOUNTS;
    for (place, count, numbers) in [(0, 2, NUMBERS), (1, 2, NUMBERS - 1), (2, most, NUMBERS), (3, most + 1, NUMBERS)] {
        let mut lengths = vec![0; count];
        lengths[..2].copy_from_slice(&[file.len() as u64, noon.len() as u64]);
        let mut lent = vec![BEFORE; numbers];
        let answer = committee::figures(&[file, noon].concat(), &lengths, &mut lent);
        say(out, "committee", place, answer.as_ref().map_or_else(told, |_| ACCEPTED));
        list(out, "committee", place, &lent);
    }
}

/// The right list of each question, the same with its last use and then its last number wrong by one too, and with a prompt more.
fn ask_lists(out: &mut String, file: &[u8], noon: &[u8]) {
    let checked = independent::check(file);
    for question in QUESTIONS {
        let right = checked.as_ref().ok().and_then(|account| held_book(account, question).ok()).map(|book| List::of(&book));
        let mut list = right.unwrap_or(List { prompts: 0, numbers: vec![], uses: vec![] });
        for wrong in 0..4 {
            match wrong {
                1 => list.uses.iter_mut().last().into_iter().for_each(|number| *number += 1),
                2 => list.numbers.iter_mut().last().into_iter().for_each(|number| *number -= 1),
                3 => list.prompts += 1,
                _ => {}
            }
            say_list(out, "list", question, judge(file, question, &list).map_err(|refusal| refusal.of(0)));
            say_list(out, "joined list", question, judge_joined(file, noon, question, &list));
        }
    }
}

fn say_list(out: &mut String, word: &str, question: u64, said: Result<Verdict, PairRefusal>) {
    let [file, refusal, record] =
        said.as_ref().map_or_else(|told| [told.file.into(), told.number.into(), told.record], |_| [0; 3]);
    let [verdict, step] = said.map_or([0; 2], numbered);
    writeln!(out, "{word} {question} file {file} refusal {refusal} record {record} verdict {verdict} step {step}").unwrap();
}

fn ask_screen(out: &mut String, file: &[u8], room: usize, held: u64) {
    let mut lent = [file, &vec![BEFORE as u8; room]].concat();
    let row = file.chunks_exact(96).find(|record| record[0] == 3);
    let ticket = row.map_or(vec![0; 96], <[u8]>::to_vec);
    let told = |refusal: Option<Refusal>| refusal.map_or([0, 0], |refusal| [refusal.number.into(), refusal.record]);
    let [refusal, record] = told(screen::load(&lent, held).err());
    writeln!(out, "screen load {room} refusal {refusal} record {record}").unwrap();
    let read = screen::read_total(&lent, held);
    let [refusal, record] = told(read.as_ref().err().copied());
    writeln!(out, "screen total refusal {refusal} record {record} total {}", read.map_or(0, |total| total.0)).unwrap();
    let mut after = lent.clone();
    after.resize(after.len() + 96, 0);
    let with = screen::add(&mut after, held, &ticket).and_then(|held| screen::read_total(&after, held)).map_or(0, |total| total.0);
    for (place, limit) in [i64::MIN, -1, 0, 383650, i64::MAX].into_iter().enumerate() {
        let asked = screen::ask(&lent, held, &ticket, limit);
        let [refusal, record] = told(asked.as_ref().err().copied());
        let (answer, total) = match asked {
            Err(_) => (0, 0),
            Ok(Limit::Within) => (1, with),
            Ok(Limit::Over { total }) => (2, total.0),
        };
        writeln!(out, "screen limit {place} refusal {refusal} record {record} answer {answer} total {total}").unwrap();
    }
    let added = screen::add(&mut lent, held, &ticket);
    let [refusal, record] = told(added.as_ref().err().copied());
    let bytes: String = lent.iter().map(|byte| format!(" {byte}")).collect();
    writeln!(out, "screen add refusal {refusal} record {record} named {}:{bytes}", added.unwrap_or(0)).unwrap();
}

fn ask_tickets(out: &mut String, file: &[u8]) {
    let row = file.chunks_exact(96).filter(|record| record[0] == 3).next_back();
    let ticket = row.map_or(vec![0; 96], <[u8]>::to_vec);
    for held in 0..3 {
        let put_in = |number: usize| {
            let mut kept = Kept::load(file).map_err(|refusal| (0, refusal))?;
            (1..=number).try_for_each(|place| kept.add(&ticket).map_err(|refusal| (place, refusal)))?;
            Ok(kept)
        };
        let mut print = |word: &str, told: Result<(usize, Kept, Kept), (usize, Refusal)>| {
            let total = |kept: &Kept| margin::total(&margin::figures_of(&kept.account())).0;
            let [ticket, refusal, record, before, after] = match &told {
                Ok((ticket, before, after)) => [*ticket as i64, 0, 0, total(before), total(after)],
                Err((ticket, refusal)) => [*ticket as i64, refusal.number.into(), refusal.record as i64, 0, 0],
            };
            writeln!(out, "{word} {held} ticket {ticket} refusal {refusal} record {record} before {before} after {after}").unwrap();
        };
        let with = |ticket: &[u8]| {
            let kept: Kept = put_in(held)?;
            let after = kept.with(ticket).map_err(|refusal| (held + 1, refusal))?;
            Ok((held + 1, kept, after))
        };
        print("ticket", with(&ticket));
        print("cut ticket", with(&ticket[..95]));
        let withdrawn = put_in(held).and_then(|kept: Kept| {
            let mut after = kept.clone();
            after.withdraw().map_err(|refusal| (held, refusal))?;
            Ok((held, kept, after))
        });
        print("withdrawal", withdrawn);
    }
}

fn ask_write(out: &mut String, file: &[u8], room: usize) {
    let of_a_kind = |record: &[u8]| entered::entered(record.try_into().expect("96 bytes"));
    let entries: Vec<Entered> = file.chunks_exact(96).rev().map(of_a_kind).collect();
    let said = entries.iter().flat_map(entered::record).eq(file.chunks_exact(96).rev().flatten().copied());
    let mut lent = vec![BEFORE as u8; room];
    let [refusal, entry, written] = match said {
        true => match entered::write(&entries, &mut lent) {
            Ok(written) => [0, 0, written],
            Err(refusal) => [refusal.number.into(), refusal.record, 0],
        },
        false => by_the_check(file),
    };
    let bytes: String = lent.iter().map(|byte| format!(" {byte}")).collect();
    writeln!(out, "write {room} refusal {refusal} entry {entry} written {written}:{bytes}").unwrap();
}

/// What the written file gets where an entry is of no kind or an unused byte is set, which an entry cannot say: the records sorted.
fn by_the_check(file: &[u8]) -> [usize; 3] {
    let entries: Vec<&[u8]> = file.chunks_exact(96).rev().collect();
    let key = |record: &[u8]| match record[0] {
        2 => (2, record[1], u32::from_le_bytes([record[4], record[5], record[6], record[7]])),
        5 => (5, 0, 0),
        kind => (kind, record[1], 0),
    };
    let mut order: Vec<usize> = (0..entries.len()).collect();
    order.sort_by_key(|&place| key(entries[place]));
    let sorted: Vec<u8> = order.iter().flat_map(|&place| entries[place]).copied().collect();
    match independent::check(&sorted) {
        Err(Refusal { number, record }) => [number.into(), if number < 3 { 0 } else { order[record] }, 0],
        Ok(_) => unreachable!("what an entry cannot say is refused"),
    }
}
