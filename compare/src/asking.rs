//! Putting the same questions to the proved library and to the independent program.

use independent::generate::Random;
use std::fmt::Debug;
use std::panic::{catch_unwind, AssertUnwindSafe};

/// How many numbers stand behind those lent, not to be touched.
const NOT_LENT: usize = 8;
const DIFFERENCES_SHOWN: usize = 10;

/// Which generated inputs are compared: SEED COUNT [FIRST].
#[derive(Clone, Copy)]
pub struct Run {
    pub seed: u64,
    pub count: u64,
    pub first: u64,
}

impl Run {
    /// What the command line says, or nothing where it says something else.
    pub fn of_arguments() -> Option<Run> {
        let words: Vec<u64> = std::env::args().skip(1).filter_map(|word| word.parse().ok()).collect();
        match words[..] {
            [seed, count] => Some(Run { seed, count, first: 0 }),
            [seed, count, first] => Some(Run { seed, count, first }),
            _ => None,
        }
    }

    /// Compares the two for each index, prints where they differ, up to a few, and gives how often they do.
    pub fn differences(self, mut compare: impl FnMut(u64) -> Result<(), String>) -> usize {
        let mut differences = 0;
        for index in self.first..self.first + self.count {
            let held = catch_unwind(AssertUnwindSafe(|| compare(index)));
            if let Err(fault) = held.unwrap_or_else(|_| Err("one of the two did not end its answer".to_string())) {
                println!("seed {} index {index}: {fault}", self.seed);
                differences += 1;
                if differences == DIFFERENCES_SHOWN {
                    break;
                }
            }
        }
        differences
    }
}

/// Puts a question to both with so many numbers lent for each of its answers, out of memory filled alike. Gives the outcomes,
/// if these are the same and the memory afterwards too.
pub fn ask_each<Outcome: PartialEq + Debug, const ANSWERS: usize>(
    question: &str,
    lent: [usize; ANSWERS],
    proved: impl Fn([&mut [i64]; ANSWERS]) -> [Outcome; ANSWERS],
    second: impl Fn([&mut [i64]; ANSWERS]) -> [Outcome; ANSWERS],
    random: &mut Random,
) -> Result<[Outcome; ANSWERS], String> {
    let before = lent.map(|lent| (0..lent + NOT_LENT).map(|_| random.word() as i64).collect::<Vec<i64>>());
    let (mut by_proved, mut by_second) = (before.clone(), before);
    let given = proved(fronts(&mut by_proved));
    let wanted = second(fronts(&mut by_second));
    same(&format!("{question}, {lent:?} numbers lent"), &given, &wanted)?;
    same(&format!("{question}, {lent:?} numbers lent: memory afterwards"), by_proved, by_second)?;
    Ok(wanted)
}

/// The numbers that are lent of each.
fn fronts<const ANSWERS: usize>(memory: &mut [Vec<i64>; ANSWERS]) -> [&mut [i64]; ANSWERS] {
    memory.each_mut().map(|numbers| {
        let lent = numbers.len() - NOT_LENT;
        &mut numbers[..lent]
    })
}

pub fn same<T: PartialEq + Debug>(what: &str, proved: T, independent: T) -> Result<(), String> {
    if proved == independent {
        Ok(())
    } else {
        Err(format!("{what}: proved {proved:?}, independent {independent:?}"))
    }
}
