//! What is still open in a delta book, and why no spread takes it: for each spread that could, the legs that have too little left.

use super::working::Differs;
use crate::account::{Book, Leg, Prompt, Spread};

/// A prompt that is still open, and the spreads with a leg in its tier.
pub struct Open<'a> {
    pub prompt: &'a Prompt,
    pub takers: Vec<Taker<'a>>,
}

/// The step of a spread that could take an open prompt.
pub struct Taker<'a> {
    pub spread: &'a Spread,
    /// Counted from 0.
    pub step: usize,
    /// How many spreads the step would form of what is left.
    pub forms: i128,
    pub lacking: Vec<Lacking<'a>>,
}

/// A leg that has too little left on the side that it takes for the least number of spreads, 0.0001.
pub struct Lacking<'a> {
    pub leg: &'a Leg,
    pub long: bool,
    pub left: i128,
    pub least: i128,
}

/// Whether a ratio of the book is in tenths.
pub fn has_tenths(book: &Book) -> bool {
    book.spreads.iter().flat_map(|spread| &spread.legs).any(|leg| leg.tenths)
}

/// The open prompts of a book. It is proved that no step of whole ratios forms anything of what is left; a step that would is
/// told in place of it.
pub fn open(book: &Book) -> Result<Vec<Open<'_>>, Differs> {
    let still = book.prompts.iter().filter(|prompt| prompt.unused != 0);
    let open: Vec<Open> = still.map(|prompt| Open { prompt, takers: takers(book, prompt) }).collect();
    let forming = open.iter().flat_map(|open| &open.takers).find(|taker| taker.forms != 0);
    match forming {
        Some(taker) if !has_tenths(book) => Err(Differs {
            what: format!("book {}, spreads that spread {} forms of what is left", book.question, taker.spread.place),
            worked_out: taker.forms,
            proved: 0,
        }),
        _ => Ok(open),
    }
}

/// Each tier that is open long with each that is open short, where no spread has a leg of one side in the first and of the other
/// in the second.
pub fn unlisted_pairs(book: &Book, open: &[Open]) -> Vec<(i64, i64)> {
    let tiers = |long: bool| {
        let mut tiers: Vec<i64> = open.iter().filter(|of| (of.prompt.unused > 0) == long).map(|of| of.prompt.tier).collect();
        tiers.dedup();
        tiers
    };
    let short = tiers(false);
    let pairs = tiers(true).into_iter().flat_map(|long| short.iter().map(move |short| (long, *short)));
    pairs.filter(|(long, short)| !book.spreads.iter().any(|spread| pairs_tiers(spread, *long, *short))).collect()
}

fn pairs_tiers(spread: &Spread, long: i64, short: i64) -> bool {
    let in_tier = |tier: i64| spread.legs.iter().filter(move |leg| leg.tier == tier);
    in_tier(long).any(|leg| in_tier(short).any(|other| other.side != leg.side))
}

fn takers<'a>(book: &'a Book, prompt: &Prompt) -> Vec<Taker<'a>> {
    let long = prompt.unused > 0;
    let mut takers = vec![];
    for spread in &book.spreads {
        for leg in spread.legs.iter().filter(|leg| leg.tier == prompt.tier) {
            let step = if leg.takes_long(0) == long { 0 } else { 1 };
            takers.push(taker(book, spread, step));
        }
    }
    takers
}

fn taker<'a>(book: &Book, spread: &'a Spread, step: usize) -> Taker<'a> {
    let lacking = |leg: &'a Leg| {
        let long = leg.takes_long(step);
        let left = pool(book, leg, long);
        let least = (i128::from(leg.ratio) + leg.parts() - 1) / leg.parts();
        (left < least).then_some(Lacking { leg, long, left, least })
    };
    let forms = spread.legs.iter().map(|leg| formed(leg, pool(book, leg, leg.takes_long(step)))).min().unwrap_or(0);
    Taker { spread, step, forms, lacking: spread.legs.iter().filter_map(lacking).collect() }
}

/// "Pool divided by ratio, whole ten-thousandths, rounded down"; with tenths ten times that.
fn formed(leg: &Leg, pool: i128) -> i128 {
    leg.parts() * pool / i128::from(leg.ratio)
}

/// What is left of a tier on one side.
fn pool(book: &Book, leg: &Leg, long: bool) -> i128 {
    let of_side = |prompt: &&Prompt| prompt.tier == leg.tier && (prompt.unused > 0) == long;
    book.prompts.iter().filter(of_side).map(|prompt| i128::from(prompt.unused.abs())).sum()
}
