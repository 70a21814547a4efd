//! Raising a limit must be harmless: pairs of runs that differ in their limits alone, by this program
//! and by the library, each held to the law by itself and both to each other.

pub mod law;
mod library_law;
mod met;
pub mod pair;

use crate::answer::Answers;
use crate::library;
use crate::memory::Lent;
use crate::random::Random;
use crate::vectors::input_line;
use crate::watch::Watch;
use crate::workers::{each_index, Inputs};
use law::{broken, must_stay};
use library_law::{expected, TwoRuns};
use met::Met;
use pair::{pair, Pair};
use std::fmt;
use std::sync::atomic::{AtomicU64, Ordering};

/// So many failed pairs are shown in full.
const SHOWN: u64 = 5;
/// From so many pairs on there has to be enough of every sort.
const MANY: u64 = 10_000;

/// What can be wrong with a pair.
const PARTS: [&str; 4] =
    ["the law here", "a Failure lost here", "the law in the library", "this and the library"];
/// What each part found wrong with one pair.
type Faults = [Option<String>; PARTS.len()];

#[derive(Default)]
pub struct Raising {
    /// Of the pairs that passed.
    met: Met,
    pub passed: u64,
    pub failed: u64,
    /// How many pairs each part found wrong.
    told: [u64; PARTS.len()],
}

/// None if the library is not linked in.
pub fn raising(inputs: Inputs) -> Option<Raising> {
    if !library::LINKED {
        return None;
    }
    let shown = AtomicU64::new(0);
    let parts = each_index(inputs, |part: &mut Raising, index| {
        let pair = pair(inputs.seed, index);
        let Some(faults) = part.checked(inputs.seed, index, &pair) else {
            return;
        };
        if shown.fetch_add(1, Ordering::Relaxed) < SHOWN {
            println!("{}", words(inputs.seed, index, &pair, &faults));
        }
    });
    let mut whole = Raising::default();
    parts.iter().for_each(|part| whole.merge(part));
    if inputs.count >= MANY {
        for missing in whole.met.missing() {
            println!("{missing}");
            whole.failed += 1;
        }
    }
    Some(whole)
}

impl Raising {
    /// What each part found wrong with the pair, none if it passed. Only then are its answers counted, as
    /// those of a library that went wrong can be anything.
    fn checked(&mut self, seed: u64, index: u64, pair: &Pair) -> Option<Faults> {
        let (lower, higher) = (pair.lower.watched(), pair.higher.watched());
        // The noise is other than the numbers that made the pair.
        let before = Lent::new(&pair.lower, &mut Random::new(!seed, index));
        let runs = [
            TwoRuns::without_file(&pair.lower, &pair.higher, &before),
            TwoRuns::with_file(&pair.lower, &pair.higher, &before),
        ];
        let sides = runs.iter().zip(expected(&lower.0)).zip(expected(&higher.0));
        let faults = [
            broken_here(pair, &lower.0, &higher.0),
            lost_here(&lower).or_else(|| lost_here(&higher)),
            runs.iter().find_map(|runs| runs.broken(&pair.rise)),
            sides.into_iter().find_map(|((runs, low), high)| runs.disagreement(&before, &low, &high)),
        ];
        if faults.iter().all(Option::is_none) {
            self.passed += 1;
            self.met.add(&pair.rise, &lower.0.without_file, &higher.0.without_file, &lower.1);
            return None;
        }
        self.failed += 1;
        for (told, fault) in self.told.iter_mut().zip(&faults) {
            *told += u64::from(fault.is_some());
        }
        Some(faults)
    }

    fn merge(&mut self, other: &Raising) {
        self.met.merge(&other.met);
        self.passed += other.passed;
        self.failed += other.failed;
        for (mine, others) in self.told.iter_mut().zip(&other.told) {
            *mine += others;
        }
    }
}

/// The law by this program's own answers: result sheets, and the call graph where they have to stay.
fn broken_here(pair: &Pair, lower: &Answers, higher: &Answers) -> Option<String> {
    let answers = [(&lower.without_file, &higher.without_file), (&lower.with_file, &higher.with_file)];
    let how = answers.into_iter().find_map(|(low, high)| broken(&pair.rise, low, high));
    if how.is_some() {
        return how.map(str::to_string);
    }
    let stays = must_stay(&pair.rise, &lower.with_file);
    (stays && lower.graph != higher.graph).then(|| "the call graph changed".to_string())
}

fn lost_here((answers, watch): &(Answers, Watch)) -> Option<String> {
    watch.lost_failure(&answers.without_file)
}

fn words(seed: u64, index: u64, pair: &Pair, faults: &[Option<String>]) -> String {
    let found = PARTS.iter().zip(faults).filter_map(|(part, fault)| Some((part, fault.as_ref()?)));
    let found: Vec<String> = found.map(|(part, fault)| format!("\n {part}: {fault}")).collect();
    format!(
        "pair {index} of seed {seed}, limits raised to {:?}, {}\n{}{}",
        pair.rise.higher,
        pair.lower.sizes(),
        input_line(&pair.lower),
        found.concat()
    )
}

impl fmt::Display for Raising {
    fn fmt(&self, out: &mut fmt::Formatter) -> fmt::Result {
        write!(out, "{}", self.met)?;
        for (part, told) in PARTS.iter().zip(&self.told).filter(|(_, told)| **told > 0) {
            writeln!(out, "wrong in {told} pairs: {part}")?;
        }
        Ok(())
    }
}
