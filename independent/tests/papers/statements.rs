//! Request 2026-13 of document 02, two things clients ask us to state, tried on generated accounts.

use crate::builder::*;
use independent::check;
use independent::generate::{account, parted, reordered, Random};
use independent::statements::{risks, same_answers};
use independent::units::Amount;

#[test]
fn the_order_of_rows_within_a_contract_changes_nothing() {
    let mut moved = 0;
    for index in 0..1_200 {
        let file = account(4, index);
        let Ok(before) = check(&file) else { continue };
        let other = reordered(&mut Random::new(5, index), &file);
        assert!(same_answers(&before, &check(&other).expect("an accepted account")));
        moved += usize::from(other != file);
    }
    assert!(moved > 300, "{moved} files with rows in another order");
}

#[test]
fn a_risk_over_the_rows_of_both_is_at_most_the_sum() {
    let (mut below, mut just) = (0, 0);
    for index in 0..1_200 {
        let file = account(4, index);
        let Ok(both) = check(&file) else { continue };
        let parts = parted(&mut Random::new(5, index), &file);
        let [first, second] = parts.map(|part| check(&part).expect("an accepted account"));
        for of in risks(&both, [&first, &second]) {
            assert!(of.hold(), "{of:?}");
            below += usize::from(of.both < of.parts[0] + of.parts[1]);
            just += usize::from(of.both == of.parts[0] + of.parts[1]);
        }
    }
    assert!(below > 200 && just > 200, "{below} below, {just} just the sum");
}

/// A row of currency 1 that loses so much in scenario 1 and half of it in scenario 2.
fn row(loss: i32) -> Record {
    let mut losses = NO_LOSS;
    losses[..2].copy_from_slice(&[loss, loss / 2]);
    in_currency(1, forward(1, 10, (1, 10_000, 1, &losses)))
}

#[test]
fn both_hold_with_units_and_currencies() {
    // 0.5 with 50 percent and a unit of 100: losses of 133 and 67 are 99.75 and 50.25, so 100 each.
    let before = [in_units(100, contract(1, 0)), prompt(1, 1, 10)];
    let after = [rate(1, 500_000, 50)];
    let rows = [row(133), row(67), row(-133), row(-266), row(600)];
    let of = |rows: &[Record]| check(&file(&[&before, rows, &after])).expect("an accepted account");
    let both = of(&rows);
    for turn in 1..rows.len() {
        let mut turned = rows;
        turned.rotate_left(turn);
        assert!(same_answers(&both, &of(&turned)));
        let told = risks(&both, [&of(&rows[..turn]), &of(&rows[turn..])]);
        assert!(told.iter().all(|of| of.hold()));
    }
    let told = risks(&of(&rows[..2]), [&of(&rows[..1]), &of(&rows[1..2])]);
    assert_eq!((told[0].both, told[0].parts), (Amount(200), [Amount(100), Amount(100)]));
}

#[test]
fn rows_of_another_contract_or_day_are_another_account() {
    let account = |days: [u32; 2]| {
        let rows = days.map(|day| forward(1, day, (day as i32, 10_000, 1, &NO_LOSS)));
        check(&file(&[&[contract(1, 0), prompt(1, 1, 1), prompt(1, 1, 2)], &rows])).ok().unwrap()
    };
    assert!(same_answers(&account([1, 2]), &account([2, 1])));
    assert!(!same_answers(&account([1, 2]), &account([1, 1])));
}
