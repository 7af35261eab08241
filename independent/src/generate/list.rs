//! Lists of spreads as members send them: right ones, and ones wrong in a number, in a use or in a count.

use super::random::Random;
use crate::list::List;

/// A list like the right one, mostly with faults.
pub fn list(random: &mut Random, right: &List) -> List {
    let mut list = right.clone();
    match random.below(8) {
        0..=2 => {}
        3 => other_counts(random, &mut list),
        _ => {
            let step = some_step(random, &list);
            fault(random, &mut list, step);
            if random.one_in(3) {
                let step = if random.one_in(2) { step } else { some_step(random, &list) };
                fault(random, &mut list, step);
            }
        }
    }
    list
}

/// Any step, or one that forms spreads.
fn some_step(random: &mut Random, list: &List) -> usize {
    let forms: Vec<usize> =
        (0..list.numbers.len()).filter(|step| list.numbers[*step] > 0).collect();
    if forms.is_empty() || random.one_in(2) {
        random.place(list.numbers.len().max(1))
    } else {
        random.pick(&forms)
    }
}

/// Makes a number or a use of this step wrong, if there is one.
fn fault(random: &mut Random, list: &mut List, step: usize) {
    let place = step * list.prompts + random.place(list.prompts.max(1));
    let next = (place + 1).min(((step + 1) * list.prompts).saturating_sub(1));
    match random.below(8) {
        _ if step >= list.numbers.len() => {}
        0 => list.numbers[step] = list.numbers[step].saturating_add(1),
        1 => list.numbers[step] = list.numbers[step].saturating_sub(1),
        2 => list.numbers[step] = random.pick(&[0, -1, i64::MAX, i64::MIN, 10_000]),
        _ if list.prompts == 0 => list.numbers[step] = list.numbers[step].saturating_add(1),
        3 => list.uses[place] = list.uses[place].saturating_add(random.pick(&[1, -1])),
        4 => list.uses[place] = list.uses[place].wrapping_neg(),
        5 => list.uses[place] = random.pick(&[0, i64::MAX, i64::MIN, -10_000]),
        6 => list.uses.swap(place, next),
        // The uses of the step are moved on by one prompt, so that they still add up.
        _ => list.uses[step * list.prompts..(step + 1) * list.prompts].rotate_right(1),
    }
}

/// One step or one prompt more or less, or none at all; the uses are as many as the counts say.
fn other_counts(random: &mut Random, list: &mut List) {
    let (mut steps, mut prompts) = (list.numbers.len(), list.prompts);
    match random.below(6) {
        0 => steps += 1,
        1 => steps = steps.saturating_sub(1),
        2 => prompts += 1,
        3 => prompts = prompts.saturating_sub(1),
        4 => (steps, prompts) = (prompts, steps),
        _ => (steps, prompts) = (0, 0),
    }
    list.numbers.resize(steps, 0);
    list.prompts = prompts;
    list.uses.resize(steps * prompts, 0);
}
