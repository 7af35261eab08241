//! Request 2026-07 of document 02, one ticket more.

use crate::builder::*;
use crate::refusals::sound;
use independent::generate::{self, Doing};
use independent::ticket::Kept;
use independent::{check, Refusal};

fn loaded(file: &[u8]) -> Kept {
    Kept::load(file).expect("an accepted account")
}

fn refusal(number: u8, record: usize) -> Result<(), Refusal> {
    Err(Refusal { number, record })
}

/// A row of contract 1 or 2 in the sound account.
fn row(contract: u8, lots: i32) -> Record {
    forward(contract, 10, (lots, 10_000, 1, &[30; 16]))
}

#[test]
fn a_ticket_is_put_last_among_its_contracts_rows() {
    // The sound account has contracts 0 and 1, prompts 2 to 5, a row of contract 1 and one of contract 2.
    let account = file(&[&sound()]);
    let with_at = |place: usize, record: Record| {
        let mut records = sound();
        records.insert(place, record);
        file(&[&records])
    };
    for (ticket, place) in [(row(1, 5), 7), (row(2, -5), 8)] {
        let kept = loaded(&account).with(&ticket).unwrap();
        assert_eq!(kept.file(), with_at(place, ticket));
        let mut lent = [0; 129];
        let written = kept.figures(&mut lent).unwrap();
        assert_eq!(lent[..written], figures_of(&with_at(place, ticket)));
    }
}

#[test]
fn a_ticket_changes_the_figures() {
    let account = file(&[&[contract(1, 0), prompt(1, 1, 10)]]);
    let mut kept = loaded(&account);
    assert_eq!(kept.add(&row(1, 2)), Ok(()));
    assert_eq!(kept.add(&row(1, -1)), Ok(()));
    assert_eq!(figures_of(kept.file())[2], 30);
    assert_eq!(kept.withdraw(), Ok(()));
    assert_eq!(figures_of(kept.file())[2], 60);
}

#[test]
fn tickets_are_withdrawn_the_latest_first_and_the_account_is_as_before() {
    let mut kept = loaded(&file(&[&sound()]));
    let mut before = vec![kept.clone()];
    for ticket in [row(2, 1), row(1, 2), row(2, 3), row(1, 4)] {
        assert_eq!(kept.add(&ticket), Ok(()));
        before.push(kept.clone());
    }
    before.pop();
    while let Some(was) = before.pop() {
        assert_eq!(kept.withdraw(), Ok(()));
        assert_eq!(kept, was);
    }
    // "22, a withdrawal with no ticket left": the file's own rows are no tickets.
    assert_eq!(kept.withdraw(), refusal(22, 0));
    assert_eq!(kept.file(), file(&[&sound()]));
}

#[test]
fn refusal_2_is_for_other_than_96_bytes() {
    let mut kept = loaded(&file(&[&sound()]));
    for length in [0, 1, 95, 97, 192] {
        assert_eq!(kept.add(&vec![3; length]), refusal(2, 0));
    }
}

#[test]
fn refusals_3_to_15_name_the_would_be_place() {
    let mut kept = loaded(&file(&[&sound()]));
    let before = kept.clone();
    let place = |contract| if contract == 2 { 8 } else { 7 };
    for contract in [1, 2] {
        let own = place(contract);
        let sound = row(contract, 1);
        for kind in [0, 1, 2, 4, 5, 6, 7, 255] {
            assert_eq!(kept.add(&with(sound, 0, kind)), refusal(3, own));
        }
        assert_eq!(kept.add(&with(sound, 95, 1)), refusal(5, own));
        assert_eq!(kept.add(&with(sound, 2, 3)), refusal(6, own));
        assert_eq!(kept.add(&with(sound, 4, 11)), refusal(7, own));
        assert_eq!(kept.add(&with(sound, 3, 1)), refusal(14, own));
    }
    // Contracts that are not listed: before all rows, and after all; 255 is out of range.
    assert_eq!(kept.add(&row(0, 1)), refusal(7, 6));
    assert_eq!(kept.add(&row(3, 1)), refusal(7, 8));
    assert_eq!(kept.add(&row(255, 1)), refusal(6, 8));
    // "Changing nothing".
    assert_eq!(kept, before);
}

#[test]
fn the_order_is_2_3_5_6_7_9_14() {
    let mut kept = loaded(&file(&[&sound()]));
    let mut ticket = with(row(1, 1), 3, 1);
    for (byte, value, number) in [(4, 11, 7), (2, 3, 6), (95, 1, 5), (0, 4, 3)] {
        ticket = with(ticket, byte, value);
        assert_eq!(kept.add(&ticket), refusal(number, 7));
    }
    assert_eq!(kept.add(&ticket[..95]), refusal(2, 0));
}

#[test]
fn refusal_9_is_for_the_129th_row() {
    let rows = vec![row(1, 1); 127];
    let mut kept = loaded(&file(&[&[contract(1, 0), prompt(1, 1, 10)], &rows]));
    assert_eq!(kept.add(&row(1, 1)), Ok(()));
    assert_eq!(kept.add(&row(1, 1)), refusal(9, 2 + 128));
    // Before 14.
    assert_eq!(kept.add(&in_currency(1, row(1, 1))), refusal(9, 2 + 128));
    assert_eq!(kept.withdraw(), Ok(()));
    assert_eq!(kept.add(&in_currency(1, row(1, 1))), refusal(14, 2 + 127));
}

#[test]
fn refusals_14_and_15_are_for_the_new_row() {
    let account = file(&[&[contract(1, 0), prompt(1, 1, 10)], &[rate(2, 1_000_001, 0)]]);
    let mut kept = loaded(&account);
    let large = forward(1, 10, (100_000, 0, 10_000, &[100_000; 16]));
    assert_eq!(kept.add(&in_currency(1, large)), refusal(14, 2));
    assert_eq!(kept.add(&in_currency(2, large)), refusal(15, 2));
    assert_eq!(kept.add(&in_currency(0, large)), Ok(()));
    assert_eq!(kept.add(&in_currency(2, row(1, 100))), Ok(()));
    assert_eq!(figures_of(kept.file())[2], 100_000_000_000_000 + 3_000);
}

/// 640 records: 5 contracts with a prompt and 126 rows each.
fn full() -> Vec<u8> {
    let numbers = [1, 2, 3, 4, 5];
    let rows: Vec<Record> = numbers.iter().flat_map(|number| vec![row(*number, 1); 126]).collect();
    file(&[
        &numbers.map(|number| contract(number, 0)),
        &numbers.map(|number| prompt(number, 1, 10)),
        &rows,
    ])
}

#[test]
fn refusal_1_comes_last() {
    let mut kept = loaded(&full());
    assert_eq!(kept.add(&row(1, 1)), refusal(1, 0));
    assert_eq!(kept.add(&in_currency(1, row(1, 1))), refusal(14, 10 + 126));
    assert_eq!(kept.add(&row(9, 1)), refusal(7, 640));
    let mut kept = loaded(&full()[..639 * 96]);
    assert_eq!(kept.add(&row(1, 1)), Ok(()));
    assert_eq!(kept.add(&row(1, 1)), refusal(1, 0));
    assert_eq!(kept.withdraw(), Ok(()));
    assert_eq!(kept.file(), &full()[..639 * 96]);
}

#[test]
fn a_refused_file_is_not_kept() {
    assert_eq!(Kept::load(&[0; 95]), Err(Refusal { number: 2, record: 0 }));
    assert_eq!(loaded(&[]).withdraw(), refusal(22, 0));
    assert_eq!(loaded(&[]).add(&row(1, 1)), refusal(7, 0));
}

#[test]
fn generated_tickets_leave_accepted_accounts_and_come_back() {
    for index in 0..150 {
        let (file, doings) = generate::tickets(2, index);
        let Ok(mut kept) = Kept::load(&file) else { continue };
        for doing in doings {
            let before = kept.clone();
            let done = match &doing {
                Doing::Add(ticket) => kept.add(ticket),
                Doing::Withdraw => kept.withdraw(),
            };
            if done.is_err() {
                assert_eq!(kept, before);
            }
            assert!(check(kept.file()).is_ok());
        }
        while kept.withdraw().is_ok() {}
        assert_eq!(kept.file(), file);
    }
}
