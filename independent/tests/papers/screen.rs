//! Request 2026-14 of document 02, the order screen's limit.

use crate::builder::*;
use crate::reckoned::printed;
use crate::refusals::sound;
use independent::generate;
use independent::screen::{add, ask, load, read_total, Limit};
use independent::ticket::Kept;
use independent::units::Amount;
use independent::Refusal;

fn refusal<T>(number: u8, record: usize) -> Result<T, Refusal> {
    Err(Refusal { number, record })
}

/// A contract with one prompt and no row, so that a ticket alone makes the total.
fn account() -> Vec<u8> {
    file(&[&[contract(1, 0), prompt(1, 1, 10)]])
}

/// A row that loses so much.
fn row(loss: i32) -> Record {
    forward(1, 10, (1, 0, 1, &[loss; 16]))
}

/// The bytes with room after them.
fn lent(file: &[u8], room: usize) -> Vec<u8> {
    [file, &vec![7; room]].concat()
}

#[test]
fn an_account_is_loaded_and_its_total_read() {
    let lent = lent(&printed(), 100);
    let held = printed().len() as u64;
    assert_eq!(load(&lent, held), Ok(4));
    assert_eq!(read_total(&lent, held), Ok(Amount(383_650)));
    assert_eq!(load(&lent, 0), Ok(0));
    assert_eq!(read_total(&lent, 0), Ok(Amount(0)));
}

#[test]
fn yes_is_given_exactly_at_or_below_the_limit() {
    let asked = |loss, limit| ask(&account(), 192, &row(loss), limit);
    assert_eq!(asked(500, 500), Ok(Limit::Within));
    assert_eq!(asked(500, 501), Ok(Limit::Within));
    // "A ticket that is over the limit comes back with that total."
    assert_eq!(asked(500, 499), Ok(Limit::Over { total: Amount(500) }));
    assert_eq!(asked(500, 0), Ok(Limit::Over { total: Amount(500) }));
    assert_eq!(asked(-500, 0), Ok(Limit::Within));
    assert_eq!(asked(500, i64::MAX), Ok(Limit::Within));
}

#[test]
fn the_total_is_that_of_the_account_with_the_ticket() {
    // The ticket takes from the risk of a row held: the total falls.
    let with_row = file(&[&[contract(1, 0), prompt(1, 1, 10), row(900)]]);
    assert_eq!(ask(&with_row, 288, &row(-600), 300), Ok(Limit::Within));
    assert_eq!(ask(&with_row, 288, &row(-600), 299), Ok(Limit::Over { total: Amount(300) }));
    assert_eq!(ask(&with_row, 288, &row(100), 300), Ok(Limit::Over { total: Amount(1_000) }));
}

#[test]
fn a_ticket_is_added_in_its_place_and_nothing_after_is_written() {
    let file_before = file(&[&sound()]);
    let held = file_before.len();
    for (contract, place) in [(1, 7), (2, 8)] {
        let ticket = forward(contract, 10, (1, 1, 1, &NO_LOSS));
        let mut bytes = lent(&file_before, 200);
        assert_eq!(add(&mut bytes, held as u64, &ticket), Ok(held as u64 + 96));
        let mut records = sound();
        records.insert(place, ticket);
        assert_eq!(bytes[..held + 96], file(&[&records]));
        assert_eq!(bytes[held + 96..], [7; 104]);
    }
}

#[test]
fn refusal_20_is_first_of_all() {
    for limit in [-1, i64::MIN] {
        assert_eq!(ask(&account(), 192, &row(1), limit), refusal(20, 0));
        assert_eq!(ask(&account(), 193, &[], limit), refusal(20, 0));
        assert_eq!(ask(&account(), 95, &[], limit), refusal(20, 0));
    }
    assert_eq!(ask(&account(), 192, &row(0), 0), Ok(Limit::Within));
}

#[test]
fn refusal_16_is_for_more_bytes_named_than_lent() {
    for held in [193, 1 << 32, (1 << 32) + 192, u64::MAX] {
        assert_eq!(load(&account(), held), refusal(16, 0));
        assert_eq!(read_total(&account(), held), refusal(16, 0));
        assert_eq!(ask(&account(), held, &[], 0), refusal(16, 0));
        assert_eq!(add(&mut account(), held, &[]), refusal(16, 0));
    }
    // Before the account's own faults.
    assert_eq!(load(&[0; 95], 96), refusal(16, 0));
    assert_eq!(load(&[0; 95], 95), refusal(2, 0));
}

#[test]
fn the_accounts_own_refusals_come_before_the_tickets() {
    let faulty = file(&[&[contract(1, 0), prompt(2, 1, 10)]]);
    assert_eq!(load(&faulty, 192), refusal(7, 1));
    assert_eq!(ask(&faulty, 192, &[], 0), refusal(7, 1));
    assert_eq!(add(&mut faulty.clone(), 192, &[]), refusal(7, 1));
    assert_eq!(ask(&account(), 192, &[], 0), refusal(2, 0));
    assert_eq!(ask(&account(), 192, &with(row(1), 4, 11), 0), refusal(7, 2));
    assert_eq!(ask(&account(), 192, &in_currency(1, row(1)), 0), refusal(14, 2));
    // A part of the bytes is another account.
    assert_eq!(ask(&account(), 96, &row(1), 0), refusal(7, 1));
}

#[test]
fn refusal_16_for_adding_without_room_comes_last() {
    for room in [0, 1, 95] {
        let before = lent(&account(), room);
        let mut bytes = before.clone();
        assert_eq!(add(&mut bytes, 192, &row(1)), refusal(16, 0));
        assert_eq!(add(&mut bytes, 192, &with(row(1), 2, 3)), refusal(6, 2));
        assert_eq!(bytes, before);
        // Asking needs no room.
        assert_eq!(ask(&bytes, 192, &row(1), 1), Ok(Limit::Within));
        assert_eq!(bytes, before);
    }
    assert_eq!(add(&mut lent(&account(), 96), 192, &row(1)), Ok(288));
}

#[test]
fn a_641st_record_is_a_1_before_16() {
    let numbers = [1, 2, 3, 4, 5];
    let rows: Vec<Record> = numbers
        .iter()
        .flat_map(|number| vec![forward(*number, 10, (1, 0, 1, &NO_LOSS)); 126])
        .collect();
    let mut full = file(&[
        &numbers.map(|number| contract(number, 0)),
        &numbers.map(|number| prompt(number, 1, 10)),
        &rows,
    ]);
    assert_eq!(add(&mut full, 61_440, &row(1)), refusal(1, 0));
}

#[test]
fn what_is_asked_and_what_is_added_agree() {
    let (mut yes, mut over) = (0, 0);
    for index in 0..300 {
        let screen = generate::screen(2, index);
        let mut bytes = lent(&screen.lent, 96);
        let Ok(held) = add(&mut bytes, screen.held, &screen.ticket) else { continue };
        let total = read_total(&bytes, held).unwrap();
        let kept = Kept::load(&screen.lent[..screen.held as usize]).unwrap();
        assert_eq!(bytes[..held as usize], *kept.with(&screen.ticket).unwrap().file());
        for limit in [0, total.0 - 1, total.0, total.0 + 1, total.0 / 2] {
            let asked = ask(&screen.lent, screen.held, &screen.ticket, limit.max(0)).unwrap();
            let within = total <= Amount(limit.max(0));
            assert_eq!(asked, if within { Limit::Within } else { Limit::Over { total } });
            yes += usize::from(within);
            over += usize::from(!within);
        }
    }
    assert!(yes > 100 && over > 100, "{yes} within, {over} over");
}
