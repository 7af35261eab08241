//! Request 2026-10 of document 02, the clearing house's own spread list.

use crate::builder::*;
use independent::generate::{self, Random};
use independent::list::{judge, judge_joined, List, Verdict};
use independent::{check, held_book, PairRefusal, Refusal};

/// P1's tiers with spreads 1-1, 2-2 and 1-2 alone: 3 prompts, 6 steps.
fn account() -> Vec<u8> {
    file(&[
        &[contract(1, 0), prompt(1, 1, 1), prompt(1, 2, 2), prompt(1, 2, 3)],
        &net(1, 1, -300_000),
        &net(1, 2, 200_000),
        &net(1, 3, -50_000),
        &[pair(1, 1, 1, 1), pair(1, 1, 2, 2), pair(1, 1, 1, 2)],
    ])
}

/// Formed 0, 5 in the first step and 15 in the second.
fn right() -> List {
    let uses =
        [[0, 0, 0], [0, 0, 0], [0, 50_000, -50_000], [0, 0, 0], [0, 0, 0], [-150_000, 150_000, 0]];
    List { prompts: 3, numbers: vec![0, 0, 50_000, 0, 0, 150_000], uses: uses.concat() }
}

fn judged(change: impl Fn(&mut List)) -> Result<Verdict, Refusal> {
    let mut list = right();
    change(&mut list);
    judge(&account(), 1, &list)
}

#[test]
fn yes_is_said_to_the_steps_of_01() {
    assert_eq!(judged(|_| {}), Ok(Verdict::Yes));
}

#[test]
fn a_number_is_more_than_can_be_formed_or_less() {
    assert_eq!(judged(|list| list.numbers[2] = 50_001), Ok(Verdict::More { step: 2 }));
    assert_eq!(judged(|list| list.numbers[2] = 49_999), Ok(Verdict::Less { step: 2 }));
    assert_eq!(judged(|list| list.numbers[0] = 1), Ok(Verdict::More { step: 0 }));
    assert_eq!(judged(|list| list.numbers[0] = -1), Ok(Verdict::Less { step: 0 }));
    assert_eq!(judged(|list| list.numbers[5] = i64::MAX), Ok(Verdict::More { step: 5 }));
    assert_eq!(judged(|list| list.numbers[5] = i64::MIN), Ok(Verdict::Less { step: 5 }));
}

#[test]
fn the_number_is_right_and_some_prompts_use_is_not() {
    // A sign turned, a use of the wrong prompt, a use in the wrong step.
    assert_eq!(judged(|list| list.uses[8] = 50_000), Ok(Verdict::OtherUse { step: 2 }));
    assert_eq!(judged(|list| list.uses.swap(15, 17)), Ok(Verdict::OtherUse { step: 5 }));
    assert_eq!(judged(|list| list.uses[0] = 1), Ok(Verdict::OtherUse { step: 0 }));
    assert_eq!(judged(|list| list.uses.swap(7, 10)), Ok(Verdict::OtherUse { step: 2 }));
}

#[test]
fn the_first_wrong_step_answers_and_in_it_the_number_before_the_use() {
    let both = judged(|list| {
        list.numbers[5] = 0;
        list.uses[9] = 7;
    });
    assert_eq!(both, Ok(Verdict::OtherUse { step: 3 }));
    let in_one = judged(|list| {
        list.numbers[2] = 60_000;
        list.uses[6..9].copy_from_slice(&[0, 60_000, -60_000]);
    });
    assert_eq!(in_one, Ok(Verdict::More { step: 2 }));
    let in_one = judged(|list| {
        list.numbers[2] = 0;
        list.uses[6..9].fill(0);
    });
    assert_eq!(in_one, Ok(Verdict::Less { step: 2 }));
}

#[test]
fn a_list_that_adds_up_in_another_way_is_not_the_one() {
    // "Earliest day first": 5 of tier 1 from the second prompt would add up as well.
    let account = file(&[
        &[contract(1, 0), prompt(1, 1, 1), prompt(1, 1, 2), prompt(1, 2, 3)],
        &net(1, 1, 50_000),
        &net(1, 2, 50_000),
        &net(1, 3, -50_000),
        &[pair(1, 1, 1, 2)],
    ]);
    let list = |uses: [i64; 6]| List { prompts: 3, numbers: vec![50_000, 0], uses: uses.to_vec() };
    let told = |uses| judge(&account, 1, &list(uses));
    assert_eq!(told([50_000, 0, -50_000, 0, 0, 0]), Ok(Verdict::Yes));
    assert_eq!(told([0, 50_000, -50_000, 0, 0, 0]), Ok(Verdict::OtherUse { step: 0 }));
}

#[test]
fn refusal_18_is_for_other_counts_and_names_record_0() {
    let eighteen = Err(Refusal { number: 18, record: 0 });
    let counted = |steps: usize, prompts: usize| {
        let list = List { prompts, numbers: vec![0; steps], uses: vec![0; steps * prompts] };
        judge(&account(), 1, &list)
    };
    for (steps, prompts) in [(5, 3), (7, 3), (6, 2), (6, 4), (0, 0), (3, 6), (0, 3), (6, 0)] {
        assert_eq!(counted(steps, prompts), eighteen);
    }
    assert_eq!(counted(6, 3), Ok(Verdict::Less { step: 2 }));
    // A contract without prompts and spreads: nothing is the right list.
    let bare = file(&[&[contract(2, 0)]]);
    let nothing = List { prompts: 0, numbers: vec![], uses: vec![] };
    assert_eq!(judge(&bare, 2, &nothing), Ok(Verdict::Yes));
    assert_eq!(judge(&bare, 16, &nothing), eighteen);
    let of_table = List { prompts: 1, ..nothing };
    assert_eq!(judge(&bare, 16, &of_table), Ok(Verdict::Yes));
    assert_eq!(judge(&bare, 2, &of_table), eighteen);
}

#[test]
fn refusal_18_comes_after_the_accounts_own_faults_and_11() {
    let nothing = List { prompts: 0, numbers: vec![], uses: vec![] };
    assert_eq!(judge(&account(), 1, &nothing), Err(Refusal { number: 18, record: 0 }));
    assert_eq!(judge(&account(), 2, &nothing), Err(Refusal { number: 11, record: 13 }));
    assert_eq!(judge(&[0; 95], 2, &nothing), Err(Refusal { number: 2, record: 0 }));
}

#[test]
fn the_intercontract_table_is_judged_too() {
    let account = file(&[
        &[contract(1, 0), contract(2, 0), prompt(1, 1, 1), prompt(2, 1, 1)],
        &net(1, 1, 1_200_000),
        &net(2, 1, -10_012),
        &[entry_in_tenths(85, (1, 96), (2, 10))],
    ]);
    let list =
        |used| List { prompts: 2, numbers: vec![10_012, 0], uses: vec![used, -10_012, 0, 0] };
    assert_eq!(judge(&account, 16, &list(96_115)), Ok(Verdict::Yes));
    assert_eq!(judge(&account, 16, &list(96_116)), Ok(Verdict::OtherUse { step: 0 }));
}

#[test]
fn yes_is_said_to_the_right_list_and_to_no_other() {
    for index in 0..400 {
        let file = generate::account(2, index);
        let Ok(account) = check(&file) else { continue };
        let mut random = Random::new(2, index);
        for question in 0..=16 {
            let Ok(book) = held_book(&account, question) else { continue };
            let right = List::of(&book);
            assert_eq!(judge(&file, question, &right), Ok(Verdict::Yes));
            let sent = generate::list(&mut random, &right);
            assert_eq!(judge(&file, question, &sent) == Ok(Verdict::Yes), sent == right);
        }
    }
}

#[test]
fn a_list_for_the_joined_account_is_judged_by_the_file_that_supplies_the_contract() {
    let flat = file(&[&[contract(1, 0)]]);
    let nothing = List { prompts: 0, numbers: vec![], uses: vec![] };
    assert_eq!(judge_joined(&account(), &[], 1, &right()), Ok(Verdict::Yes));
    assert_eq!(judge_joined(&account(), &flat, 1, &nothing), Ok(Verdict::Yes));
    let refused = |number, record| Err(PairRefusal { file: 0, number, record });
    assert_eq!(judge_joined(&account(), &flat, 1, &right()), refused(18, 0));
    assert_eq!(judge_joined(&account(), &flat, 2, &right()), refused(11, 1));
}
