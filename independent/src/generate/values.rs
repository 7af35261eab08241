//! The numbers put into fields: ordinary ones, small ones that tie and round, and the ends of ranges.

use super::random::Random;
use crate::format::*;

/// What sort of numbers a contract gets.
#[derive(Clone, Copy)]
pub enum Taste {
    Ordinary,
    Small,
    Ends,
    Mixed,
}

pub fn taste(random: &mut Random) -> Taste {
    random.pick(&[Taste::Ordinary, Taste::Ordinary, Taste::Small, Taste::Ends, Taste::Mixed])
}

/// How a contract's losses lie.
#[derive(Clone, Copy)]
pub enum Pattern {
    /// All sixteen the same.
    Level,
    /// A forward's array: nothing in scenarios 1 and 2, then by price alone.
    ByPrice,
    /// An array in which volatility and price both count.
    ByBoth,
    /// Few different numbers, so that scenarios tie.
    Tying,
    /// Gains in every scenario for the position held.
    Gains,
    /// One scenario stands out for the position held.
    Peak(usize),
    /// Anything.
    Loose,
}

pub fn pattern(random: &mut Random) -> Pattern {
    match random.below(9) {
        0 => Pattern::Level,
        1 | 2 => Pattern::ByPrice,
        3 => Pattern::ByBoth,
        4 => Pattern::Tying,
        5 => Pattern::Gains,
        6 | 7 => Pattern::Peak(random.place(SCENARIOS)),
        _ => Pattern::Loose,
    }
}

/// The end of a field's range, or next to it, or 0 where the range has it.
pub fn end(random: &mut Random, field: Field) -> i64 {
    let near = [field.least, field.most, field.least + 1, field.most - 1, 0, 1, -1];
    random.pick(&near).clamp(field.least, field.most)
}

fn anywhere(random: &mut Random, field: Field) -> i64 {
    random.between(field.least, field.most)
}

/// A number of the taste, where ordinary and small ones lie in these ranges.
fn by_taste(
    random: &mut Random,
    taste: Taste,
    field: Field,
    ordinary: (i64, i64),
    small: (i64, i64),
) -> i64 {
    match taste {
        Taste::Ordinary => random.between(ordinary.0, ordinary.1),
        Taste::Small => random.between(small.0, small.1),
        Taste::Ends => end(random, field),
        Taste::Mixed => {
            let taste = random.pick(&[Taste::Ordinary, Taste::Small, Taste::Ends]);
            if random.one_in(4) {
                anywhere(random, field)
            } else {
                by_taste(random, taste, field, ordinary, small)
            }
        }
    }
}

pub fn rate(random: &mut Random, taste: Taste, field: Field) -> i64 {
    if random.one_in(6) {
        return 0;
    }
    by_taste(random, taste, field, (100, 60_000), (0, 3))
}

/// A contract's unit: one hundredth in both ways of saying it, small ones, powers of ten, the ends, any.
pub fn unit(random: &mut Random) -> i64 {
    match random.below(6) {
        0 => random.pick(&[0, 1]),
        1 | 2 => random.pick(&[2, 3, 4, 10]),
        3 => random.pick(&[100, 1_000]),
        4 => random.pick(&[999, 1_000]),
        _ => random.between(UNIT.least, UNIT.most),
    }
}

pub fn lots(random: &mut Random, taste: Taste) -> i64 {
    by_taste(random, taste, LOTS, (-50, 50), (-3, 3))
}

/// A delta of a class; among the small ones also quarters of a lot, which leave halves in charges.
pub fn delta_of(random: &mut Random, taste: Taste, class: i64) -> i64 {
    let field = delta(class);
    let size = match taste {
        Taste::Small if random.one_in(2) => random.pick(&[0, 2_500, 5_000, 7_500, 10_000]),
        Taste::Ordinary if class == FORWARD => random.between(9_500, 10_000),
        _ => {
            let sizes = delta(FORWARD);
            by_taste(random, taste, sizes, (500, 9_900), (0, 6))
        }
    };
    size.clamp(0, 10_000) * if field.least < 0 { -1 } else { 1 }
}

pub fn value(random: &mut Random, taste: Taste) -> i64 {
    by_taste(random, taste, VALUE, (1, 100), (1, 2))
}

pub fn strike_of(random: &mut Random, class: i64) -> i64 {
    match (class, random.below(4)) {
        (FORWARD, _) => 0,
        (_, 0) => end(random, strike(class)),
        _ => random.between(1_000, 9_000),
    }
}

pub fn ratio(random: &mut Random) -> i64 {
    match random.below(8) {
        0..=3 => 1,
        4 | 5 => random.between(2, 4),
        6 => random.between(1, 100),
        _ => random.pick(&[99, 100]),
    }
}

/// A ratio in tenths: whole ones, 000's 9.6, those that leave halves, the ends, or any.
pub fn tenths(random: &mut Random) -> i64 {
    match random.below(8) {
        0 | 1 => 10 * random.between(1, 4),
        2 => random.pick(&[96, 14, 8]),
        3 => random.pick(&[5, 15, 25]),
        4 => 10 * random.between(0, 99) + 5,
        5 => random.pick(&[1, 2, 3, 999, 1_000]),
        6 => random.between(1, 30),
        _ => random.between(1, 1_000),
    }
}

pub fn percent(random: &mut Random) -> i64 {
    match random.below(4) {
        0 => random.pick(&[0, 1, 99, 100]),
        1 => 50,
        _ => random.between(0, 100),
    }
}

/// A forward's array: losses by price alone, in thirds of its largest.
pub fn by_price(third: i64) -> [i64; SCENARIOS] {
    [0, 0, -1, -1, 1, 1, -2, -2, 2, 2, -3, -3, 3, 3, -2, 2].map(|moves: i64| moves * third)
}

/// What all rows of a contract share so that its price risk for one delta is the same whatever it holds.
#[derive(Clone, Copy)]
pub struct Alike {
    pub delta: i64,
    pub value: i64,
    /// A third of the largest loss.
    pub range: i64,
}

/// The price risk for one delta is 3 × value × range over the delta: with a delta of 0.0128, 0.0640 or
/// 0.3200 it ends in half of a fourth decimal, and in whole hundredths with the others, so that the
/// credit may end in a half.
pub fn alike(random: &mut Random) -> Alike {
    Alike {
        delta: random.pick(&[128, 640, 3_200, 2_500, 5_000, 10_000]),
        value: random.pick(&[1, 3, 5]),
        range: random.pick(&[1, -1, 3, -3, 7, 101]),
    }
}

/// The sixteen losses of a row that holds these lots.
pub fn losses(random: &mut Random, taste: Taste, pattern: Pattern, lots: i64) -> [i64; SCENARIOS] {
    let field = loss(0);
    let draw = |random: &mut Random| by_taste(random, taste, field, (-12_000, 12_000), (-4, 4));
    let against = if lots < 0 { -1 } else { 1 };
    let mut losses = [0; SCENARIOS];
    match pattern {
        Pattern::Level => losses = [draw(random); SCENARIOS],
        Pattern::ByPrice | Pattern::ByBoth => {
            let range = draw(random) / 3;
            losses = by_price(range);
            let turn = if matches!(pattern, Pattern::ByBoth) { range / 4 + 1 } else { 0 };
            for (scenario, ticks) in losses.iter_mut().enumerate() {
                *ticks += if scenario % 2 == 0 { -turn } else { turn };
            }
        }
        Pattern::Tying => {
            let some = [draw(random), draw(random)];
            losses = losses.map(|_| random.pick(&some));
        }
        Pattern::Gains => losses = losses.map(|_| -against * draw(random).abs()),
        Pattern::Peak(scenario) => {
            losses = losses.map(|_| draw(random) / 8);
            losses[scenario] = against * draw(random).abs();
        }
        Pattern::Loose => losses = losses.map(|_| draw(random)),
    }
    losses.map(|ticks| ticks.clamp(field.least, field.most))
}

/// Rising days. Some lie so that a part of their digits or of their bytes is the same.
pub fn days(random: &mut Random, count: usize) -> Vec<i64> {
    let apart = random.pick(&[1, 7, 256, 10_000, 65_536, 100_000, 1_000_000]);
    let first = match random.below(4) {
        0 => 1,
        1 => DAY.most - apart * (count as i64 - 1).max(0),
        2 => 20_260_318,
        _ => random.between(1, 60_000_000),
    };
    (0..count as i64).map(|step| first + apart * step).collect()
}
