//! The law that raising a limit is harmless, by the bytes of two answers alone. No interpreter is asked.

use crate::answer::{Answer, FAILURE};

/// Loop limit, stack limit, budget.
pub type Limits = [u64; 3];

pub const LOOP: usize = 0;
pub const STACK: usize = 1;
pub const BUDGET: usize = 2;
/// The largest that are accepted.
pub const LARGEST: Limits = [65_535, 10, 1_000_000];

/// The limits of two runs that are alike in all else.
#[derive(Clone, Copy, Debug, PartialEq, Eq)]
pub struct Rise {
    pub lower: Limits,
    /// Each at least as large, and accepted.
    pub higher: Limits,
}

impl Rise {
    pub fn raised(&self, limit: usize) -> bool {
        self.higher[limit] > self.lower[limit]
    }

    /// How many limits are raised.
    pub fn count(&self) -> usize {
        (LOOP..=BUDGET).filter(|&limit| self.raised(limit)).count()
    }
}

/// Whether the answer of a run with a first step has to stay, whatever is raised: the run ended in anything
/// but Failure, or was refused midway by a number that no limit of the run can help.
pub fn always_stays(lower: &Answer) -> bool {
    match lower {
        Answer::Ended(_) => lower.behaviour() != Some(FAILURE),
        Answer::Refused(number, _) => (7..=10).contains(number),
    }
}

/// Whether the answer has to stay the same. Failure comes of the loop limit and the stack limit alone,
/// and a refusal with 6 of the budget alone, so these stay too where another limit is raised.
pub fn must_stay(rise: &Rise, lower: &Answer) -> bool {
    match lower {
        Answer::Refused(6, _) => !rise.raised(BUDGET),
        _ if lower.behaviour() == Some(FAILURE) => !rise.raised(LOOP) && !rise.raised(STACK),
        _ => true,
    }
}

/// None if the law holds for the two answers, else how it is broken.
pub fn broken(rise: &Rise, lower: &Answer, higher: &Answer) -> Option<&'static str> {
    if lower == higher {
        return None;
    }
    if must_stay(rise, lower) {
        return Some("the answer changed");
    }
    if !went_further(rise, lower, higher) {
        return Some("the answer changed though the run did not get further");
    }
    None
}

/// A run stopped by a limit does the same again under a higher one, and then at least a step more; it is
/// no longer refused for anything that is looked at before the first step.
fn went_further(rise: &Rise, lower: &Answer, higher: &Answer) -> bool {
    let before = lower.steps().unwrap_or(rise.lower[BUDGET]);
    match higher {
        Answer::Ended(_) => higher.steps() > Some(before),
        Answer::Refused(number, _) => (6..=10).contains(number),
    }
}
