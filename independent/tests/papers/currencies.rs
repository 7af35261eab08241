//! Request 2026-05 of document 02, copper in four currencies: rows in several currencies, their rates, and
//! refusals 14 and 15.

use crate::builder::*;
use independent::joined::{self, Cover};
use independent::units::Amount;
use independent::{book, figures, PairRefusal, Refusal};

/// A contract with one prompt, these rows and these rates.
fn account(rows: &[Record], rates: &[Record]) -> Vec<u8> {
    file(&[&[contract(1, 0), prompt(1, 1, 1)], rows, rates])
}

/// One lot at value 1 that loses so much in every scenario.
fn row(currency: u8, loss: i32) -> Record {
    in_currency(currency, forward(1, 1, (1, 0, 1, &[loss; 16])))
}

/// The largest total, or 0, of one row of this currency.
fn scanning(currency: u8, loss: i32, rate: Record) -> i64 {
    figures_of(&account(&[row(currency, loss)], &[rate]))[2]
}

/// What a gain is converted to: it stands against a larger loss in the margin currency.
fn gain(ticks: i32, rate: Record) -> i64 {
    let rows = [row(0, 100_000), row(1, -ticks)];
    figures_of(&account(&rows, &[rate]))[2] - 100_000
}

#[test]
fn a_loss_is_converted_at_the_rate_raised_and_a_gain_at_the_rate_lowered() {
    // 1.5 with 10 percent: 1.65 for losses, 1.35 for gains.
    let rate = rate(1, 1_500_000, 10);
    assert_eq!(scanning(1, 1_000, rate), 1_650);
    assert_eq!(gain(1_000, rate), -1_350);
    // The sign of lots × value × loss decides: a short lot that wins in ticks loses.
    let short = in_currency(1, forward(1, 1, (-1, 0, 1, &[-1_000; 16])));
    assert_eq!(figures_of(&account(&[short], &[rate]))[2], 1_650);
}

/// The sixteen totals of the first contract.
fn totals_of(file: &[u8]) -> [i64; 16] {
    let account = independent::check(file).unwrap_or_else(|refusal| panic!("{refusal}"));
    independent::margin::totals(&account.contracts[0]).map(|total| total.0)
}

#[test]
fn of_the_two_adjusted_rates_the_worse_one_counts_as_in_002() {
    // 002, 1.10.2.2: of the losses converted at the rate adjusted upwards and at the one adjusted downwards the
    // algebraically larger one is selected: "if -10 is compared to -20 then -10 is selected; [..] if 10 is compared
    // to 20 then 20 is selected". At 1 and 33 percent 15 is 10.05 or 19.95, in whole units, to which 002 rounds, 10
    // or 20. That 10 is compared to -10, 002's first case, cannot be: no rate is lowered below 0.
    let mut losses = NO_LOSS;
    losses[1..3].copy_from_slice(&[-1_500, 1_500]);
    let sterling = in_currency(1, forward(1, 1, (1, 0, 1, &losses)));
    let whole = file(&[
        &[in_units(100, contract(1, 0)), prompt(1, 1, 1)],
        &[sterling],
        &[rate(1, 1_000_000, 33)],
    ]);
    assert_eq!(totals_of(&whole)[..4], [0, -1_000, 2_000, 0]);
    // In hundredths they stay 10.05 and 19.95.
    let hundredths = account(&[sterling], &[rate(1, 1_000_000, 33)]);
    assert_eq!(totals_of(&hundredths)[..4], [0, -1_005, 1_995, 0]);
}

#[test]
fn rows_of_one_currency_are_converted_apart_where_002_adds_them_first() {
    // 002 converts the total losses of a contract in a currency: a lot long and a lot short are nothing. By 2026-05
    // each row is converted, the loss at 1.1 and the gain at 0.9.
    let rates = [rate(1, 1_000_000, 10)];
    let [long, short] =
        [1, -1].map(|lots| in_currency(1, forward(1, 1, (lots, 0, 1, &[1_000; 16]))));
    assert_eq!(totals_of(&account(&[long, short], &rates)), [200; 16]);
    // Two rows on one side come to the same either way, but for the rounding of each.
    assert_eq!(totals_of(&account(&[long, long], &rates)), [2_200; 16]);
    let odd = row(1, 5);
    assert_eq!(totals_of(&account(&[odd, odd], &rates)), [12; 16]);
}

#[test]
fn halves_go_away_from_zero() {
    let half = rate(1, 500_000, 0);
    assert_eq!([1, 2, 3].map(|ticks| scanning(1, ticks, half)), [1, 1, 2]);
    assert_eq!([1, 2, 3].map(|ticks| gain(ticks, half)), [-1, -1, -2]);
    let below = rate(1, 499_999, 0);
    assert_eq!((scanning(1, 1, below), gain(1, below)), (0, 0));
    // The rate raised or lowered is not rounded by itself: 0.000001 and 50 percent on 1,000,000 / 3.
    assert_eq!(scanning(1, 100_000, rate(1, 5, 1)), 1);
    assert_eq!(scanning(1, 99_009, rate(1, 5, 1)), 0);
    assert_eq!(scanning(1, 99_010, rate(1, 5, 1)), 1);
}

#[test]
fn each_row_is_rounded_by_itself() {
    let rows = [row(1, 1), row(1, 1), row(2, 1)];
    let rates = [rate(1, 500_000, 0), rate(2, 400_000, 0)];
    assert_eq!(figures_of(&account(&rows, &rates))[2], 2);
}

#[test]
fn each_scenario_is_converted_by_itself() {
    // The gain of scenario 2 and the loss of scenario 3 go by different rates.
    let mut losses = NO_LOSS;
    losses[1..3].copy_from_slice(&[-100, 100]);
    let rows = [in_currency(7, forward(1, 1, (2, 10_000, 3, &losses)))];
    let figures = figures_of(&account(&rows, &[rate(7, 2_000_000, 50)]));
    assert_eq!(figures[..3], [1, 3, 1_800]);
}

#[test]
fn the_margin_currency_and_the_deltas_are_not_converted() {
    let rows = [
        in_currency(0, forward(1, 1, (3, 9_000, 1, &[7; 16]))),
        in_currency(1, forward(1, 1, (2, 10_000, 1, &NO_LOSS))),
    ];
    let account = account(&rows, &[rate(1, 100_000_000, 50)]);
    assert_eq!(figures_of(&account)[2], 21);
    assert_eq!(book_of(&account, 1)[..3], [47_000, 0, 47_000]);
}

#[test]
fn rates_alone_are_an_accepted_account() {
    let rates: Vec<Record> = (1..=7).map(|currency| rate(currency, 1, 0)).collect();
    assert_eq!(figures_of(&file(&[&rates])), [0]);
    assert_eq!(refused(&account(&[], &rates)), None);
}

#[test]
fn fields_of_rates_and_of_rows_have_their_ranges() {
    let six = |rate| refused(&account(&[], &[rate])) == Some((6, 2));
    for sound in [rate(1, 1, 0), rate(7, 100_000_000, 50), rate(4, 1_000_000, 25)] {
        assert_eq!(refused(&account(&[], &[sound])), None);
    }
    assert!(six(rate(0, 1, 0)) && six(rate(8, 1, 0)) && six(rate(255, 1, 0)));
    assert!(six(rate(1, 0, 0)) && six(rate(1, 100_000_001, 0)) && six(rate(1, u32::MAX, 0)));
    assert!(six(rate(1, 1, 51)) && six(rate(1, 1, 255)));
    for byte in (1..96).filter(|byte| ![1, 4, 5, 6, 7, 8].contains(byte)) {
        let changed = with(rate(1, 1, 0), byte, 1);
        assert_eq!(refused(&account(&[], &[changed])), Some((5, 2)), "byte {byte}");
    }
    let rates: Vec<Record> = (1..=7).map(|currency| rate(currency, 1, 0)).collect();
    for currency in 0..=7 {
        assert_eq!(refused(&account(&[row(currency, 1)], &rates)), None);
    }
    for currency in [8, 128, 255] {
        assert_eq!(refused(&account(&[row(currency, 1)], &rates)), Some((6, 2)));
    }
}

#[test]
fn kind_6_comes_after_kind_5_and_its_currencies_rise() {
    let refusal = |rates: &[Record]| refused(&account(&[], rates));
    assert_eq!(refusal(&[rate(1, 1, 0), rate(2, 1, 0)]), None);
    assert_eq!(refusal(&[rate(2, 1, 0), rate(2, 1, 0)]), Some((8, 3)));
    assert_eq!(refusal(&[rate(3, 1, 0), rate(2, 1, 0)]), Some((8, 3)));
    assert_eq!(refusal(&[with(rate(1, 1, 0), 0, 7)]), Some((3, 2)));
    let entries = [contract(1, 0), contract(2, 0), rate(1, 1, 0), entry(1, (1, 1), (2, 1))];
    assert_eq!(refused(&file(&[&entries])), Some((4, 3)));
    // A rate names no contract: the currency of its byte 1 need not be a contract.
    assert_eq!(refused(&file(&[&[rate(5, 1, 0)]])), None);
}

#[test]
fn refusal_14_is_for_a_row_whose_currency_has_no_rate() {
    assert_eq!(refused(&account(&[row(0, 1), row(2, 1)], &[rate(1, 1, 0)])), Some((14, 3)));
    // Also with 0 lots.
    let nothing = in_currency(3, forward(1, 1, (0, 0, 1, &NO_LOSS)));
    assert_eq!(refused(&account(&[nothing], &[])), Some((14, 2)));
}

/// A row whose product is so many lots × value × loss in every scenario.
fn product(currency: u8, lots: i32, value: u32, loss: i32) -> Record {
    in_currency(currency, forward(1, 1, (lots, 0, value, &[loss; 16])))
}

#[test]
fn refusal_15_is_for_a_conversion_beyond_1e14_either_way() {
    for sign in [1, -1] {
        let most = product(1, sign * 100_000, 10_000, 100_000);
        assert_eq!(refused(&account(&[most], &[rate(1, 1_000_000, 0)])), None);
        assert_eq!(refused(&account(&[most], &[rate(1, 1_000_001, 0)])), Some((15, 2)));
        // In the margin currency it is not converted.
        let most = product(0, sign * 100_000, 10_000, 100_000);
        assert_eq!(refused(&account(&[most], &[rate(1, 100_000_000, 50)])), None);
        // 50,867 × 1,873 × 41,161 at 25.5 is 1e14 and a half, which goes away from zero.
        let half = product(1, sign * 50_867, 1_873, 41_161);
        assert_eq!(refused(&account(&[half], &[rate(1, 25_500_000, 0)])), Some((15, 2)));
        assert_eq!(refused(&account(&[half], &[rate(1, 25_499_999, 0)])), None);
    }
    // 66,667e9 as a loss at 1.5 passes the limit, as a gain at 0.5 it does not.
    let rates = [rate(1, 1_000_000, 50)];
    assert_eq!(refused(&account(&[product(1, 100_000, 10_000, 66_667)], &rates)), Some((15, 2)));
    assert_eq!(refused(&account(&[product(1, 100_000, 10_000, -66_667)], &rates)), None);
    assert_eq!(refused(&account(&[product(1, 100_000, 10_000, 66_666)], &rates)), None);
    // One scenario is enough.
    let mut losses = NO_LOSS;
    losses[15] = 100_000;
    let last = in_currency(1, forward(1, 1, (100_000, 0, 10_000, &losses)));
    assert_eq!(refused(&account(&[last], &[rate(1, 1_000_001, 0)])), Some((15, 2)));
}

#[test]
fn the_first_row_answers_and_all_records_come_before() {
    let large = product(1, 100_000, 10_000, 100_000);
    let rates = [rate(1, 2_000_000, 0)];
    assert_eq!(refused(&account(&[row(0, 1), large, row(2, 1)], &rates)), Some((15, 3)));
    assert_eq!(refused(&account(&[row(0, 1), row(2, 1), large], &rates)), Some((14, 3)));
    // A fault of a later record answers before 14 and 15.
    assert_eq!(refused(&account(&[large, row(2, 1)], &[rate(1, 0, 0)])), Some((6, 4)));
    let twice = [rates[0], rates[0]];
    assert_eq!(refused(&account(&[large, row(2, 1)], &twice)), Some((8, 5)));
}

#[test]
fn refusals_14_and_15_answer_before_11_and_10_and_write_nothing() {
    let unrated = account(&[row(2, 1)], &[]);
    let refusal = Err(Refusal { number: 14, record: 2 });
    let mut lent = [-777; 20];
    assert_eq!(figures(&unrated, &mut lent), refusal);
    assert_eq!(figures(&unrated, &mut []), refusal);
    assert_eq!(book(&unrated, 9, &mut []), refusal);
    assert_eq!(lent, [-777; 20]);
}

const COVER: Cover = Cover { last_call: Amount(0), threshold: Amount(0), collateral: Amount(0) };

#[test]
fn joined_kind_6_comes_from_the_morning() {
    let morning = account(&[], &[rate(1, 2_000_000, 0)]);
    let noon = account(&[row(1, 50)], &[]);
    assert_eq!(joined::call(&morning, &noon, COVER), Ok(Amount(100)));
    // By itself the noon file's row has no rate, which is no fault of a pair.
    assert_eq!(refused(&noon), Some((14, 2)));
}

#[test]
fn joined_kind_6_in_the_noon_file_is_a_12() {
    let noon = account(&[], &[rate(1, 1, 0), rate(2, 1, 0)]);
    let twelve = |record| Err(PairRefusal { file: 2, number: 12, record });
    assert_eq!(joined::join(&[], &noon), twelve(2));
    // At the first record of kind 5 or 6.
    let contracts = [contract(1, 0), contract(2, 0)];
    let both = file(&[&contracts, &[entry(1, (1, 1), (2, 1)), rate(1, 1, 0)]]);
    assert_eq!(joined::join(&[], &both), twelve(2));
    // A fault of the rate itself comes first.
    let faulty = account(&[], &[rate(1, 0, 0)]);
    assert_eq!(joined::join(&[], &faulty), Err(PairRefusal { file: 2, number: 6, record: 2 }));
}

#[test]
fn joined_14_and_15_name_the_joined_record() {
    let joined_refusal = |number, record| Some(PairRefusal { file: 0, number, record });
    // The morning's row of contract 3 comes after noon's contract 1.
    let other = in_currency(2, forward(3, 9, (1, 0, 1, &NO_LOSS)));
    let morning = file(&[&[contract(3, 0), prompt(3, 1, 9), other], &[rate(1, 2_000_000, 0)]]);
    let noon = account(&[row(1, 5)], &[]);
    assert_eq!(joined::join(&morning, &noon).err(), joined_refusal(14, 5));
    let large = account(&[product(1, 100_000, 10_000, 100_000)], &[]);
    assert_eq!(joined::join(&morning, &large).err(), joined_refusal(15, 4));
    // Before 21, 11 and 10.
    let outside = Cover { last_call: Amount(-1), ..COVER };
    assert_eq!(joined::call(&morning, &noon, outside).err(), joined_refusal(14, 5));
    assert_eq!(joined::book(&morning, &noon, 9, &mut []).err(), joined_refusal(14, 5));
    // With no such row there is nothing to refuse, whatever the morning held.
    let closed = file(&[&[contract(3, 0)]]);
    assert_eq!(joined::join(&morning, &closed).map(|file| file.len()), Ok(2 * 96));
}

#[test]
fn joined_13_comes_before_14() {
    let rows = |number| vec![in_currency(3, forward(number, 1, (1, 0, 1, &NO_LOSS))); 128];
    let half = |numbers: [u8; 3]| {
        file(&[
            &numbers.map(|number| contract(number, 0)),
            &numbers.map(|number| prompt(number, 1, 1)),
            &numbers.map(rows).concat(),
        ])
    };
    let refusal = joined::join(&half([1, 2, 3]), &half([4, 5, 6]));
    assert_eq!(refusal, Err(PairRefusal { file: 0, number: 13, record: 2 * 390 }));
}

#[test]
fn no_prompts_are_handed_back_where_the_rows_are_refused() {
    let noon = account(&[row(1, 5)], &[]);
    assert_eq!(joined::prompts(&[], &noon, 1).records, 0);
    assert_eq!(joined::prompts(&file(&[&[rate(1, 1, 0)]]), &noon, 1).records, 1);
}
