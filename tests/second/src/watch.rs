//! Looks on at a run for what its answer does not tell: when a Failure first came up, and how much of
//! its limits the run took. No rule asks it anything.

use crate::answer::{Answer, FAILURE};

#[derive(Clone, Copy, Debug, Default, PartialEq, Eq)]
pub struct Watch {
    /// The steps made when the evaluation of a record first came to Failure or to an error.
    failed_at: Option<u64>,
    /// The most bodies that one while began.
    pub bodies: u64,
    /// The most calls that were open at once.
    pub calls: u64,
    /// All steps, also those of a run that was refused on its way.
    pub steps: u64,
}

impl Watch {
    pub fn failed(&mut self, steps: u64) {
        self.failed_at.get_or_insert(steps);
    }

    pub fn turned(&mut self, bodies: u64) {
        self.bodies = self.bodies.max(bodies);
    }

    pub fn opened(&mut self, calls: u64) {
        self.calls = self.calls.max(calls);
    }

    /// Failure is never lost: once an evaluation has come to it, the run makes no step more and ends in
    /// it; and no run ends in it that did not come to it. None if that is so, else what happened.
    pub fn lost_failure(&self, answer: &Answer) -> Option<String> {
        let ended_at = match answer {
            // Refused ahead of the first step, so nothing was evaluated for this answer.
            Answer::Refused(1..=5, _) => return None,
            Answer::Refused(..) => None,
            Answer::Ended(_) => answer.steps().filter(|_| answer.behaviour() == Some(FAILURE)),
        };
        if self.failed_at == ended_at {
            return None;
        }
        Some(format!(
            "an evaluation failed after {:?} steps, the run ended in Failure after {ended_at:?}",
            self.failed_at
        ))
    }
}
