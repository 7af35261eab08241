//! A survey of the calls of generated screens.

use crate::tally::Tally;
use independent::generate::{self, Random, Screen};
use independent::refusal::*;
use independent::screen::{add, ask, read_total, Limit};
use independent::ticket::Kept;
use independent::units::Amount;

pub fn survey(seed: u64, count: u64) -> Tally {
    let mut tally = Tally::new("screens", count);
    for index in 0..count {
        let screen = generate::screen(seed, index);
        see(&mut tally, &screen, &mut Random::new(!seed, index));
    }
    tally
}

/// The total with the ticket, or 0 where there is none.
fn total_with(screen: &Screen) -> Amount {
    let held = usize::try_from(screen.held).ok().and_then(|held| screen.lent.get(..held));
    let kept = held.and_then(|file| Kept::load(file).ok());
    let file = kept.and_then(|kept| kept.with(&screen.ticket).ok());
    file.map_or(Amount(0), |kept| {
        read_total(kept.file(), kept.file().len() as u64).unwrap_or_default()
    })
}

fn see(tally: &mut Tally, screen: &Screen, random: &mut Random) {
    let total = total_with(screen);
    let limit = generate::limit(random, total);
    let asked = ask(&screen.lent, screen.held, &screen.ticket, limit);
    let number = asked.as_ref().err().map(|refusal| refusal.number);
    tally.refusal(&[LIMIT_BELOW_ZERO, TOO_FEW_BYTES], number);
    let named = screen.held > screen.lent.len() as u64;
    let account_refused = read_total(&screen.lent, screen.held).is_err();
    let of = |wanted| number == Some(wanted);
    tally.sight("refusal 20 while 16 holds", of(LIMIT_BELOW_ZERO) && named);
    tally.sight(
        "refusal 20 of a refused account",
        of(LIMIT_BELOW_ZERO) && account_refused && !named,
    );
    tally.sight("an account that is refused", number.is_some() && account_refused && !named);
    tally.sight("a ticket that is refused", number.is_some() && limit >= 0 && !account_refused);
    tally.sight("a total of just the limit", asked == Ok(Limit::Within) && total.0 == limit);
    tally.sight("a total one above the limit", {
        asked == Ok(Limit::Over { total }) && total.0 == limit + 1
    });
    tally.sight("a total one below the limit", asked == Ok(Limit::Within) && total.0 + 1 == limit);
    tally.sight("a total of 0 within a limit of 0", asked == Ok(Limit::Within) && limit == 0);
    let mut lent = screen.lent.clone();
    let added = add(&mut lent, screen.held, &screen.ticket);
    let room = screen.lent.len() as u64 - screen.held.min(screen.lent.len() as u64);
    tally.sight("a ticket added", added.is_ok());
    tally.sight("a ticket added with just the room for it", added.is_ok() && room == 96);
    let without = added.is_err_and(|refusal| refusal.number == TOO_FEW_BYTES) && !named;
    tally.sight("no room for a ticket", without);
    tally.sight("room for a ticket but one byte", without && room == 95);
    let faulty = added.is_err() && !without && !named && !account_refused && room < 96;
    tally.sight("a refused ticket without room", faulty);
}
