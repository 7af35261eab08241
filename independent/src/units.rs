//! "Three units occur: deltas and numbers of spreads in ten-thousandths, amounts in hundredths of
//! the currency, losses in ticks." The first three are kept apart here by type.

use std::iter::Sum;
use std::ops::{Add, AddAssign, Neg, Sub, SubAssign};

/// How many ten-thousandths make one delta or one spread.
pub const ONE: i64 = 10_000;

/// A delta in ten-thousandths: above 0 long, below 0 short.
#[derive(Clone, Copy, Debug, Default, PartialEq, Eq, PartialOrd, Ord)]
pub struct Delta(pub i64);

/// A number of spreads in ten-thousandths.
#[derive(Clone, Copy, Debug, Default, PartialEq, Eq, PartialOrd, Ord)]
pub struct Spreads(pub i64);

/// An amount in hundredths of the currency.
#[derive(Clone, Copy, Debug, Default, PartialEq, Eq, PartialOrd, Ord)]
pub struct Amount(pub i64);

impl Delta {
    /// The delta with its sign dropped.
    pub fn size(self) -> Delta {
        Delta(self.0.abs())
    }
}

impl Add for Delta {
    type Output = Delta;
    fn add(self, other: Delta) -> Delta {
        Delta(self.0 + other.0)
    }
}

impl Sub for Delta {
    type Output = Delta;
    fn sub(self, other: Delta) -> Delta {
        Delta(self.0 - other.0)
    }
}

impl Neg for Delta {
    type Output = Delta;
    fn neg(self) -> Delta {
        Delta(-self.0)
    }
}

impl AddAssign for Delta {
    fn add_assign(&mut self, other: Delta) {
        *self = *self + other;
    }
}

impl SubAssign for Delta {
    fn sub_assign(&mut self, other: Delta) {
        *self = *self - other;
    }
}

impl Sum for Delta {
    fn sum<I: Iterator<Item = Delta>>(deltas: I) -> Delta {
        deltas.fold(Delta(0), Add::add)
    }
}

impl Add for Spreads {
    type Output = Spreads;
    fn add(self, other: Spreads) -> Spreads {
        Spreads(self.0 + other.0)
    }
}

impl Add for Amount {
    type Output = Amount;
    fn add(self, other: Amount) -> Amount {
        Amount(self.0 + other.0)
    }
}

impl Sub for Amount {
    type Output = Amount;
    fn sub(self, other: Amount) -> Amount {
        Amount(self.0 - other.0)
    }
}

impl AddAssign for Amount {
    fn add_assign(&mut self, other: Amount) {
        *self = *self + other;
    }
}

impl Sum for Amount {
    fn sum<I: Iterator<Item = Amount>>(amounts: I) -> Amount {
        amounts.fold(Amount(0), Add::add)
    }
}

/// A division that is rounded once to a whole number.
#[derive(Clone, Copy, Debug, PartialEq, Eq)]
pub struct Quotient {
    pub dividend: i128,
    /// Above 0.
    pub divisor: i128,
}

impl Quotient {
    /// A number that needs no division.
    pub fn whole(number: i64) -> Quotient {
        Quotient { dividend: i128::from(number), divisor: 1 }
    }

    /// Rounded to the nearest whole number, halves up; for a dividend not below 0.
    pub fn halves_up(self) -> i128 {
        (2 * self.dividend + self.divisor) / (2 * self.divisor)
    }

    /// Rounded to the nearest whole number, halves away from zero.
    pub fn halves_away(self) -> i128 {
        let size = Quotient { dividend: self.dividend.abs(), ..self }.halves_up();
        size * self.dividend.signum()
    }

    /// Whether it lies halfway between two whole numbers.
    pub fn is_half(self) -> bool {
        let twice = 2 * self.dividend;
        twice % self.divisor == 0 && twice / self.divisor % 2 != 0
    }
}

/// The unit of a contract's currency in hundredths, request 2026-09 of document 02: what its amounts are
/// rounded to.
#[derive(Clone, Copy, Debug, PartialEq, Eq)]
pub struct Unit(pub i64);

impl Unit {
    pub const HUNDREDTH: Unit = Unit(1);

    /// Hundredths in this unit, before they are rounded.
    pub fn of(self, hundredths: Quotient) -> Quotient {
        Quotient { divisor: hundredths.divisor * i128::from(self.0), ..hundredths }
    }

    /// Hundredths, rounded once to this unit, halves up; for those not below 0.
    pub fn halves_up(self, hundredths: Quotient) -> Amount {
        self.amount(self.of(hundredths).halves_up())
    }

    /// Hundredths, rounded once to this unit, halves away from zero.
    pub fn halves_away(self, hundredths: Quotient) -> Amount {
        self.amount(self.of(hundredths).halves_away())
    }

    fn amount(self, units: i128) -> Amount {
        let hundredths = i64::try_from(units * i128::from(self.0));
        Amount(hundredths.expect("an amount of an accepted account fits in 64 bits"))
    }
}
