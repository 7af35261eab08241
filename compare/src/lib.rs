//! What the comparisons of the proved library with the independent program share.

pub mod asking;

use felgotany::{LESS_THAN_FORMED, MORE_THAN_FORMED, RIGHT, WRONG_USE};
use independent::list::Verdict;

/// What is said of a list, and the step, as the header numbers them.
pub fn numbered(verdict: Verdict) -> [usize; 2] {
    match verdict {
        Verdict::Yes => [RIGHT, 0],
        Verdict::More { step } => [MORE_THAN_FORMED, step],
        Verdict::Less { step } => [LESS_THAN_FORMED, step],
        Verdict::OtherUse { step } => [WRONG_USE, step],
    }
}
