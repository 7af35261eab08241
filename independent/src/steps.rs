//! The spread steps, done at the prompts themselves. They serve the interprompt spreads of a
//! contract and the intercontract table alike.

use crate::units::{Delta, Quotient, Spreads};

#[derive(Clone, Copy, Debug, PartialEq, Eq)]
pub enum Side {
    A,
    B,
}

#[derive(Clone, Copy, Debug, PartialEq, Eq)]
pub struct Leg {
    pub tier: i64,
    pub side: Side,
    pub ratio: i64,
    /// How many parts of the ratio make a whole: 1, or 10 where the ratio is in tenths.
    pub parts: i64,
}

impl Leg {
    /// "Pool divided by ratio, whole ten-thousandths, rounded down"; for tenths "10 × pool / ratio,
    /// rounded down" (2026-03).
    fn number_from(&self, pool: Delta) -> i64 {
        self.parts * pool.0 / self.ratio
    }

    /// "Number × ratio"; for tenths "number × ratio / 10, rounded to a ten-thousandth, halves up"
    /// (2026-03).
    pub fn takes(&self, number: Spreads) -> Delta {
        let whole = self.unrounded(number).halves_up();
        Delta(i64::try_from(whole).expect("a use is no more than its pool"))
    }

    /// What the leg takes for a number of spreads, before rounding.
    pub fn unrounded(&self, number: Spreads) -> Quotient {
        let dividend = i128::from(number.0) * i128::from(self.ratio);
        Quotient { dividend, divisor: i128::from(self.parts) }
    }
}

/// A prompt as the steps see it: its tier and its net delta. Prompts stand earliest day first.
#[derive(Clone, Copy, Debug, PartialEq, Eq)]
pub struct Net {
    pub tier: i64,
    pub delta: Delta,
}

/// One step: the number of spreads formed, and what each prompt gave, with the sign of its net delta.
#[derive(Clone, Debug, PartialEq, Eq)]
pub struct Step {
    pub number: Spreads,
    pub given: Vec<Delta>,
}

/// The two steps of each spread, in file order: "first A legs take long and B legs short, then the
/// reverse." "What one step leaves is handed to the next."
pub fn steps(prompts: &[Net], spreads: &[Vec<Leg>]) -> Vec<[Step; 2]> {
    let mut unused: Vec<Delta> = prompts.iter().map(|prompt| prompt.delta).collect();
    let mut done = vec![];
    for legs in spreads {
        let first = step(prompts, &mut unused, legs, Side::A);
        let second = step(prompts, &mut unused, legs, Side::B);
        done.push([first, second]);
    }
    done
}

/// What each prompt gave over all the steps.
pub fn used(prompts: &[Net], done: &[[Step; 2]]) -> Vec<Delta> {
    (0..prompts.len())
        .map(|prompt| done.iter().flatten().map(|step| step.given[prompt]).sum())
        .collect()
}

/// One step, in which the legs of side `long` take long deltas and the others short ones.
fn step(prompts: &[Net], unused: &mut [Delta], legs: &[Leg], long: Side) -> Step {
    // "The number formed is the smallest over its legs"
    let number = legs
        .iter()
        .map(|leg| leg.number_from(pool(prompts, unused, leg, long)))
        .min()
        .map(Spreads)
        .expect("a spread has legs");
    let mut given = vec![Delta(0); prompts.len()];
    for leg in legs {
        // "Each leg takes [..] from the prompts of its tier on that side, earliest day first."
        let mut wanted = leg.takes(number);
        for prompt in on_its_side(prompts, unused, leg, long) {
            let taken = wanted.min(unused[prompt].size());
            wanted -= taken;
            let taken = if unused[prompt] < Delta(0) { -taken } else { taken };
            given[prompt] += taken;
            unused[prompt] -= taken;
        }
    }
    Step { number, given }
}

/// "A tier's long pool is the sum of its positive unused deltas, its short pool that of its negative
/// ones, sign dropped": the pool that a leg takes from.
fn pool(prompts: &[Net], unused: &[Delta], leg: &Leg, long: Side) -> Delta {
    on_its_side(prompts, unused, leg, long).iter().map(|prompt| unused[*prompt].size()).sum()
}

/// The prompts of a leg's tier whose unused delta is on the side that the leg takes from.
fn on_its_side(prompts: &[Net], unused: &[Delta], leg: &Leg, long: Side) -> Vec<usize> {
    (0..prompts.len())
        .filter(|prompt| prompts[*prompt].tier == leg.tier)
        .filter(|prompt| {
            if leg.side == long {
                unused[*prompt] > Delta(0)
            } else {
                unused[*prompt] < Delta(0)
            }
        })
        .collect()
}
