//! A contract: what its rows come to, and what its spreads and prompts take and are charged.

use super::rates::Rates;
use super::record::{get, losses, Record};
use super::steps::{both, pay, pool_of, Passing, Pools, POOLS, WHOLE};
use independent::format::*;
use independent::margin::PAIRED_SCENARIOS;
use independent::units::ONE;

/// The records of a contract, with the place of each row's prompt.
pub struct Contract<'a> {
    pub own: &'a Record,
    pub prompts: &'a [Record],
    pub rows: &'a [Record],
    pub places: &'a [u8],
    pub spreads: &'a [Record],
    pub rates: &'a Rates,
}

/// Takes what the steps give for each spread and each prompt of a contract.
pub trait Takes {
    /// The prompts with their net deltas, before the first step.
    #[inline(always)]
    fn start(&mut self, _prompts: &[Record], _nets: &[i64; MOST_PROMPTS]) {}
    fn spread(&mut self, place: usize, spread: &Record, numbers: [i64; 2]);
    fn prompt(&mut self, place: usize, prompt: &Record, net: i64, used: i64);
}

impl<A: Takes, B: Takes> Takes for (A, B) {
    #[inline(always)]
    fn start(&mut self, prompts: &[Record], nets: &[i64; MOST_PROMPTS]) {
        self.0.start(prompts, nets);
        self.1.start(prompts, nets);
    }

    #[inline(always)]
    fn spread(&mut self, place: usize, spread: &Record, numbers: [i64; 2]) {
        self.0.spread(place, spread, numbers);
        self.1.spread(place, spread, numbers);
    }

    #[inline(always)]
    fn prompt(&mut self, place: usize, prompt: &Record, net: i64, used: i64) {
        self.0.prompt(place, prompt, net, used);
        self.1.prompt(place, prompt, net, used);
    }
}

/// The charges of a contract's spreads and of its prompts, each rounded by itself to the contract's unit.
pub struct Charges {
    unit: u64,
    pub interprompt: i64,
    pub prompt: i64,
}

impl Charges {
    pub fn of(contract: &Contract) -> Charges {
        Charges { unit: contract.unit(), interprompt: 0, prompt: 0 }
    }
}

impl Takes for Charges {
    #[inline(always)]
    fn spread(&mut self, _: usize, spread: &Record, [first, second]: [i64; 2]) {
        self.interprompt += halves_up((first + second) * get(spread, SPREAD_RATE), self.unit);
    }

    #[inline(always)]
    fn prompt(&mut self, _: usize, prompt: &Record, net: i64, used: i64) {
        let in_spreads = used.abs() * get(prompt, RATE_IN_SPREADS);
        self.prompt +=
            halves_up(in_spreads + (net - used).abs() * get(prompt, RATE_OUTRIGHT), self.unit);
    }
}

/// Ten-thousandths of an amount, rounded once to the unit.
#[inline(always)]
fn halves_up(parts: i64, unit: u64) -> i64 {
    let rounded = match unit {
        1 => (parts as u64 + ONE as u64 / 2) / ONE as u64,
        _ => (parts as u64 + ONE as u64 * unit / 2) / (ONE as u64 * unit) * unit,
    };
    rounded as i64
}

/// A product, rounded to the unit, halves away from zero.
#[inline(always)]
fn halves_away(product: i64, unit: u64) -> i64 {
    let rounded = ((product.unsigned_abs() + unit / 2) / unit * unit) as i64;
    if product < 0 {
        -rounded
    } else {
        rounded
    }
}

/// A delta book in lent memory: three numbers a prompt, then two a spread, and how often a prompt was touched.
pub struct Book<'a> {
    pub prompts: &'a mut [[i64; 3]],
    pub spreads: &'a mut [[i64; 2]],
    pub touches: &'a mut i64,
    passing: Passing,
}

impl<'a> Book<'a> {
    /// The book at the front of lent memory that is large enough.
    pub fn at(lent: &'a mut [i64], prompts: usize, spreads: usize) -> Book<'a> {
        let (front, rest) = lent.split_at_mut(3 * prompts);
        let (prompts, _) = front.as_chunks_mut();
        let (of_spreads, rest) = rest.split_at_mut(2 * spreads);
        let (spreads, _) = of_spreads.as_chunks_mut();
        Book { prompts, spreads, touches: &mut rest[0], passing: Passing::default() }
    }
}

impl Takes for Book<'_> {
    #[inline(always)]
    fn start(&mut self, prompts: &[Record], nets: &[i64; MOST_PROMPTS]) {
        *self.touches = 0;
        for (place, (prompt, net)) in prompts.iter().zip(nets).enumerate().rev() {
            self.passing.lay(
                place,
                pool_of(get(prompt, PROMPT_TIER), *net < 0),
                net.unsigned_abs(),
            );
        }
    }

    #[inline(always)]
    fn spread(&mut self, place: usize, spread: &Record, numbers: [i64; 2]) {
        self.spreads[place] = numbers;
        for (second, number) in numbers.into_iter().enumerate().filter(|(_, number)| *number > 0) {
            for leg in 0..get(spread, LEGS) as usize {
                let (pool, ratio) = leg_of(spread, leg);
                *self.touches += self.passing.touches(pool ^ second, number as u64 * ratio);
            }
        }
    }

    #[inline(always)]
    fn prompt(&mut self, place: usize, _: &Record, net: i64, used: i64) {
        self.prompts[place] = [net, used, net - used];
    }
}

impl Contract<'_> {
    /// Its unit in hundredths.
    pub fn unit(&self) -> u64 {
        get(self.own, UNIT).max(1) as u64
    }

    /// The sixteen totals, and the short lots of calls and puts. A product is at most 10^14 and is added in the fraction of a
    /// floating number, exactly for as many rows as 2^53 allows.
    #[inline(always)]
    fn totals(&self) -> ([i64; SCENARIOS], i64) {
        const EXACT_ROWS: usize = 64;
        let (mut totals, mut short_lots) = ([0; SCENARIOS], 0);
        for rows in self.rows.chunks(EXACT_ROWS) {
            let mut sums = [0.0; SCENARIOS];
            for row in rows {
                let lots = get(row, LOTS);
                let a_tick = (lots * get(row, VALUE)) as f64;
                for (sum, ticks) in sums.iter_mut().zip(losses(row)) {
                    *sum += a_tick * f64::from(ticks);
                }
                short_lots += if get(row, CLASS) == FORWARD { 0 } else { -lots.min(0) };
            }
            for (total, sum) in totals.iter_mut().zip(sums) {
                // SAFETY: a whole number, of less than 2^53
                *total += unsafe { sum.to_int_unchecked::<i64>() };
            }
        }
        (totals, short_lots)
    }

    /// The same where the unit is more than one hundredth or there are rates: each product is converted, and rounded to the unit.
    fn rounded_totals(&self) -> ([i64; SCENARIOS], i64) {
        let (mut totals, mut short_lots, unit) = ([0; SCENARIOS], 0, self.unit());
        for row in self.rows {
            let lots = get(row, LOTS);
            let a_tick = lots * get(row, VALUE);
            let rate = self.rates.of(usize::from(row[CURRENCY.at]));
            for (total, ticks) in totals.iter_mut().zip(losses(row)) {
                let product = a_tick * i64::from(ticks);
                *total += halves_away(rate.map_or(product, |rate| rate.converted(product)), unit);
            }
            short_lots += if get(row, CLASS) == FORWARD { 0 } else { -lots.min(0) };
        }
        (totals, short_lots)
    }

    /// The net delta over all prompts.
    pub fn net(&self) -> i64 {
        self.rows.iter().map(row_delta).sum()
    }

    fn nets(&self) -> [i64; MOST_PROMPTS] {
        let mut nets = [0; MOST_PROMPTS];
        for (row, place) in self.rows.iter().zip(self.places) {
            nets[usize::from(*place)] += row_delta(row);
        }
        nets
    }

    /// Runs the steps, and hands out what they give. Gives the net delta over all prompts.
    #[inline(always)]
    pub fn run(&self, takes: &mut impl Takes) -> i64 {
        let nets = self.nets();
        takes.start(self.prompts, &nets);
        let mut full = [0; POOLS];
        for (prompt, net) in self.prompts.iter().zip(nets) {
            full[pool_of(get(prompt, PROMPT_TIER), net < 0)] += net.unsigned_abs();
        }
        let mut left = full;
        for (place, spread) in self.spreads.iter().enumerate() {
            takes.spread(place, spread, steps_of(&mut left, spread));
        }
        for (place, (prompt, net)) in self.prompts.iter().zip(nets).enumerate() {
            let pool = pool_of(get(prompt, PROMPT_TIER), net < 0);
            takes.prompt(place, prompt, net, pay(net, &mut full[pool], left[pool]));
        }
        nets.iter().sum()
    }

    pub fn risks(&self) -> Risks {
        let plain = self.unit() == 1 && self.rates.none();
        let (totals, short_lots) = if plain { self.totals() } else { self.rounded_totals() };
        let mut active = 0;
        for scenario in 1..SCENARIOS {
            active = if totals[scenario] > totals[active] { scenario } else { active };
        }
        let paired = PAIRED_SCENARIOS[active] - 1;
        Risks {
            active: active as i64 + 1,
            scanning: totals[active].max(0),
            twice_price: (totals[active] + totals[paired] - totals[0] - totals[1]).max(0),
            minimum: short_lots * get(self.own, SHORT_OPTION_RATE),
        }
    }
}

/// What a contract's rows come to.
pub struct Risks {
    pub active: i64,
    pub scanning: i64,
    pub twice_price: i64,
    pub minimum: i64,
}

#[inline(always)]
fn row_delta(row: &Record) -> i64 {
    get(row, LOTS) * get(row, delta(FORWARD))
}

#[inline(always)]
fn leg_of(spread: &Record, leg: usize) -> (usize, u64) {
    let short = get(spread, leg_side(leg)) == SIDE_B;
    (pool_of(get(spread, leg_tier(leg)), short), get(spread, leg_ratio(leg)) as u64)
}

#[inline(always)]
fn steps_of(pools: &mut Pools, spread: &Record) -> [i64; 2] {
    let leg = |leg| leg_of(spread, leg);
    if get(spread, LEGS) == 2 {
        both::<WHOLE, 2>(pools, [leg(0), leg(1)])
    } else {
        both::<WHOLE, 3>(pools, [leg(0), leg(1), leg(2)])
    }
}
