//! A survey of generated runs of accounts.

use crate::tally::Tally;
use independent::generate::{self, Random, Run};
use independent::refusal::{LENGTHS_DIFFER, TOO_FEW_LENT};
use independent::run::{answers, Answer, PLACE};

pub fn survey(seed: u64, count: u64) -> Tally {
    let mut tally = Tally::new("runs", count);
    for index in 0..count {
        let run = generate::run(seed, index);
        let mut random = Random::new(!seed, index);
        let lent = generate::lent(&mut random, PLACE * run.lengths.len());
        see(&mut tally, &run, lent);
    }
    tally
}

fn see(tally: &mut Tally, run: &Run, lent: usize) {
    let told = answers(&run.bytes, &run.lengths, lent);
    let number = told.as_ref().err().map(|refusal| refusal.number);
    tally.refusal(&[LENGTHS_DIFFER, TOO_FEW_LENT], number);
    let too_few = lent < PLACE * run.lengths.len();
    tally.sight("refusal 17 while 10 holds", number == Some(LENGTHS_DIFFER) && too_few);
    let wrapped = run.lengths.iter().fold(0, |sum: u64, length| sum.wrapping_add(*length));
    let wraps = number == Some(LENGTHS_DIFFER) && wrapped == run.bytes.len() as u64;
    tally.sight("refusal 17 where the sum wraps around", wraps);
    let all = told.unwrap_or_default();
    tally.sight("a run answered", number.is_none());
    tally.sight("a run of no accounts", number.is_none() && all.is_empty());
    tally.sight("a run of 100 accounts", all.len() == 100);
    let within = |of: &Answer| of.as_ref().err().map(|refusal| refusal.number);
    for number in 1..=9 {
        let seen = all.iter().any(|of| within(of) == Some(number));
        tally.sight(&format!("an account with refusal {number}"), seen);
    }
    tally.sight("an accepted account of no bytes", all.iter().any(|of| of == &Ok(vec![0])));
    let between =
        all.windows(3).any(|of| [0, 1, 2].map(|place| of[place].is_ok()) == [true, false, true]);
    tally.sight("a refused account between two accepted ones", between);
}
