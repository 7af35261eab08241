//! A survey of lists put to generated accounts, several to each.

use crate::tally::Tally;
use independent::generate::{self, Random};
use independent::list::{judge, List, Verdict};
use independent::refusal::{OTHER_COUNTS, UNLISTED_QUESTION};
use independent::{check, held_book};

const NO_LIST: List = List { prompts: 0, numbers: vec![], uses: vec![] };

pub fn survey(seed: u64, count: u64) -> Tally {
    let mut tally = Tally::new("accounts", count);
    for index in 0..count {
        let file = generate::account(seed, index);
        let mut random = Random::new(!seed, index);
        let mut questions = vec![generate::question(&mut random), 16];
        if let Ok(account) = check(&file) {
            questions.extend(account.contracts.iter().take(2).map(|of| of.number as u64));
        }
        for question in questions {
            let right = check(&file)
                .and_then(|account| held_book(&account, question))
                .map_or(NO_LIST, |book| List::of(&book));
            let list = generate::list(&mut random, &right);
            see(&mut tally, &file, question, &right, &list);
        }
    }
    tally
}

fn see(tally: &mut Tally, file: &[u8], question: u64, right: &List, list: &List) {
    let told = judge(file, question, list);
    let number = told.as_ref().err().map(|refusal| refusal.number);
    tally.refusal(&[OTHER_COUNTS, UNLISTED_QUESTION], number);
    let counts = (list.numbers.len(), list.prompts) != (right.numbers.len(), right.prompts);
    tally.sight("refusal 11 while 18 holds", number == Some(UNLISTED_QUESTION) && counts);
    tally.sight("a fault of the account while 18 holds", check(file).is_err() && counts);
    let refused = number == Some(OTHER_COUNTS);
    tally.sight("other steps", refused && list.numbers.len() != right.numbers.len());
    tally.sight("other prompts", refused && list.prompts != right.prompts);
    let Ok(verdict) = told else { return };
    let formed = right.numbers.iter().any(|number| *number > 0);
    let step = match verdict {
        Verdict::Yes => 0,
        Verdict::More { step } | Verdict::Less { step } | Verdict::OtherUse { step } => step,
    };
    let wrong_use = verdict != Verdict::Yes && {
        let of_step = step * right.prompts..(step + 1) * right.prompts;
        list.uses[of_step.clone()] != right.uses[of_step]
    };
    let of_number = matches!(verdict, Verdict::More { .. } | Verdict::Less { .. });
    tally.sight("yes", verdict == Verdict::Yes);
    tally.sight("yes with spreads formed", verdict == Verdict::Yes && formed);
    tally.sight("more than can be formed", matches!(verdict, Verdict::More { .. }));
    tally.sight("less than can be formed", matches!(verdict, Verdict::Less { .. }));
    tally.sight("a number below 0", of_number && list.numbers[step] < 0);
    tally.sight("another use", matches!(verdict, Verdict::OtherUse { .. }));
    tally.sight("another number and another use in one step", of_number && wrong_use);
    tally.sight("the first step wrong", verdict != Verdict::Yes && step == 0);
    tally.sight("a later step wrong", step > 0);
    let sum = |uses: &[i64]| uses.iter().map(|of| i128::from(*of)).sum::<i128>();
    let same_sum =
        matches!(verdict, Verdict::OtherUse { .. }) && sum(&list.uses) == sum(&right.uses);
    tally.sight("other uses that add up", same_sum);
}
