//! The two statements of request 2026-13 tried on generated accounts.

use crate::tally::Tally;
use independent::generate::{self, Random};
use independent::statements::{risks, same_answers, Risks};
use independent::units::{Amount, Unit};
use independent::{check, Account};

pub fn survey(seed: u64, count: u64) -> Tally {
    let mut tally = Tally::new("files", count);
    for index in 0..count {
        let file = generate::account(seed, index);
        if let Ok(account) = check(&file) {
            let mut random = Random::new(!seed, index);
            first(&mut tally, &mut random, &file, &account);
            second(&mut tally, &mut random, &file, &account);
        }
    }
    tally
}

fn in_units(account: &Account) -> bool {
    account.contracts.iter().any(|of| of.unit != Unit::HUNDREDTH && of.rows.len() > 1)
}

fn in_currencies(account: &Account) -> bool {
    account.contracts.iter().any(|of| of.rows.iter().any(|row| row.currency > 0))
}

fn first(tally: &mut Tally, random: &mut Random, file: &[u8], account: &Account) {
    let reordered = generate::reordered(random, file);
    let other = check(&reordered).expect("rows in another order are accepted");
    assert!(same_answers(account, &other), "the first statement fails");
    let moved = reordered != file;
    tally.sight("rows in another order", moved);
    tally.sight("rows in another order, with units", moved && in_units(account));
    tally.sight("rows in another order, with currencies", moved && in_currencies(account));
}

fn second(tally: &mut Tally, random: &mut Random, file: &[u8], account: &Account) {
    let parts = generate::parted(random, file);
    let parts = parts.map(|part| check(&part).expect("a part of the rows is accepted"));
    let all = risks(account, [&parts[0], &parts[1]]);
    assert!(all.iter().all(|of| of.hold()), "the second statement fails");
    let two = |of: &&Risks| of.parts.iter().all(|part| *part > Amount(0));
    let below = all.iter().filter(two).any(|of| of.both < of.parts[0] + of.parts[1]);
    tally.sight("a risk below the sum of two above 0", below);
    tally.sight("a risk below the sum, with units", below && in_units(account));
    tally.sight("a risk below the sum, with currencies", below && in_currencies(account));
    let just = all.iter().filter(two).any(|of| of.both == of.parts[0] + of.parts[1]);
    tally.sight("a risk of just the sum of two above 0", just);
    tally.sight(
        "no risk over both where a part has some",
        all.iter().any(|of| of.both == Amount(0) && of.parts[0] > Amount(0)),
    );
}
