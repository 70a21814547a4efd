//! What pairs of limits were met, and which of their answers have to stay.

use super::law::{always_stays, Rise, BUDGET, LOOP, STACK};
use crate::answer::{Answer, FAILURE};
use crate::outcomes::Outcomes;
use crate::watch::Watch;
use std::fmt;

/// Answers that hang on a limit: how many did not change, and into what the others did.
#[derive(Clone, Default)]
struct Changes {
    same: u64,
    into: Outcomes,
}

#[derive(Clone, Default)]
pub struct Met {
    pairs: u64,
    /// By the number of limits raised; where it is one, by which.
    raised: [u64; 4],
    raised_alone: [u64; 3],
    /// Those with a first step, of which the answer has to stay, whatever is raised.
    kept: Outcomes,
    /// Those of them that take all of a limit, by limit.
    at_need: [u64; 3],
    /// Those of them with the most steps.
    long: u64,
    before_the_first_step: u64,
    /// Ends in Failure: neither the loop limit nor the stack limit raised, one of them, both.
    failures: [Changes; 4],
    /// Refusals with 6: the budget not raised, and raised.
    short_of_budget: [Changes; 2],
}

const LIMITS: [&str; 3] = ["loop limit", "stack limit", "budget"];
const FAILURES: [&str; 4] =
    ["neither limit raised", "loop limit raised", "stack limit raised", "both raised"];
const BUDGETS: [&str; 2] = ["budget not raised", "budget raised"];
/// A run of more steps than this is near the largest budget.
const LONG: u64 = 900_000;
/// One pair in so many has to show each limit as what an answer hung on.
const CAUSES: u64 = 200;

impl Changes {
    fn add(&mut self, lower: &Answer, higher: &Answer) {
        if lower == higher {
            self.same += 1;
        } else {
            self.into.add(higher);
        }
    }

    fn merge(&mut self, other: &Changes) {
        self.same += other.same;
        self.into.merge(&other.into);
    }
}

impl Met {
    /// Two answers of one side to a pair, and what the run under the lower limits took.
    pub fn add(&mut self, rise: &Rise, lower: &Answer, higher: &Answer, took: &Watch) {
        self.pairs += 1;
        self.raised[rise.count()] += 1;
        for limit in [LOOP, STACK, BUDGET] {
            self.raised_alone[limit] += u64::from(rise.count() == 1 && rise.raised(limit));
        }
        match lower {
            Answer::Refused(6, _) => {
                self.short_of_budget[usize::from(rise.raised(BUDGET))].add(lower, higher);
            }
            Answer::Refused(1..=5, _) => self.before_the_first_step += 1,
            _ if lower.behaviour() == Some(FAILURE) => {
                let which = usize::from(rise.raised(LOOP)) + 2 * usize::from(rise.raised(STACK));
                self.failures[which].add(lower, higher);
            }
            _ => self.keep(rise, lower, took),
        }
    }

    fn keep(&mut self, rise: &Rise, lower: &Answer, took: &Watch) {
        assert!(always_stays(lower), "every other answer was told apart before");
        self.kept.add(lower);
        self.long += u64::from(took.steps > LONG);
        for (limit, taken) in [took.bodies, took.calls, took.steps].into_iter().enumerate() {
            self.at_need[limit] += u64::from(taken > 0 && taken == rise.lower[limit]);
        }
    }

    pub fn merge(&mut self, other: &Met) {
        self.pairs += other.pairs;
        self.long += other.long;
        self.before_the_first_step += other.before_the_first_step;
        self.kept.merge(&other.kept);
        let numbers =
            [(&mut self.raised[..], &other.raised[..]), (&mut self.raised_alone, &other.raised_alone)];
        for (mine, others) in numbers.into_iter().chain([(&mut self.at_need[..], &other.at_need[..])]) {
            for (mine, others) in mine.iter_mut().zip(others) {
                *mine += others;
            }
        }
        let changes = self.failures.iter_mut().chain(&mut self.short_of_budget);
        for (mine, others) in changes.zip(other.failures.iter().chain(&other.short_of_budget)) {
            mine.merge(others);
        }
    }

    /// What a check of many pairs has to have met and has not, in words.
    pub fn missing(&self) -> Vec<String> {
        let mut missing = Vec::new();
        if 2 * self.kept.total() < self.pairs {
            missing.push("too few answers that have to stay, whatever is raised".to_string());
        }
        // A limit is the cause for certain where no other can be.
        let caused = [&self.failures[1], &self.failures[2], &self.short_of_budget[1]];
        for (limit, changes) in LIMITS.iter().zip(caused) {
            if changes.into.total() < self.pairs / CAUSES {
                missing.push(format!("too few answers changed by a higher {limit}"));
            }
        }
        for (limit, &count) in LIMITS.iter().zip(&self.at_need) {
            if count < self.pairs / CAUSES {
                missing.push(format!("too few answers that have to stay took all of the {limit}"));
            }
        }
        missing
    }
}

impl fmt::Display for Met {
    fn fmt(&self, out: &mut fmt::Formatter) -> fmt::Result {
        let [none, one, two, three] = self.raised;
        let [loops, stack, budget] = self.raised_alone;
        writeln!(out, "raised: none {none}, one {one}, two {two}, all three {three}")?;
        writeln!(out, "raised alone: loop limit {loops}, stack limit {stack}, budget {budget}")?;
        let kept = self.kept.total();
        writeln!(out, "with a first step, of which the answer has to stay, whatever is raised, {kept}:")?;
        for words in self.kept.words() {
            writeln!(out, "  {words}")?;
        }
        let [loops, stack, budget] = self.at_need;
        writeln!(out, "  took all of the loop limit {loops}, the stack limit {stack}, the budget {budget}")?;
        writeln!(out, "  made more than {LONG} steps {}", self.long)?;
        writeln!(out, "the others {}:", self.pairs - kept)?;
        writeln!(out, "  refused before the first step: the same {}", self.before_the_first_step)?;
        let failures = FAILURES.iter().map(|words| format!("failure, {words}")).zip(&self.failures);
        let budgets = BUDGETS.iter().map(|words| format!("refused 6, {words}")).zip(&self.short_of_budget);
        for (words, changes) in failures.chain(budgets) {
            let changed = changes.into.total();
            writeln!(out, "  {words}: the same {}, changed {changed}", changes.same)?;
            for words in changes.into.words() {
                writeln!(out, "    into {words}")?;
            }
        }
        Ok(())
    }
}
