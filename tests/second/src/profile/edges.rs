//! Edges: a caller and a callee with calls from the one to the other. As for the functions, every
//! figure comes from the lists of open calls, and the inclusive one twice.

use super::{OpenCall, Profile};
use std::collections::{BTreeMap, BTreeSet};

#[derive(Clone, Copy, Debug, PartialEq, Eq)]
pub struct Edge {
    pub caller: usize,
    pub callee: usize,
    pub calls: u32,
    pub inclusive: u32,
}

/// The numbers of a caller and its callee.
type Pair = (usize, usize);
type Sums = BTreeMap<Pair, u32>;

impl Profile {
    /// Every pair met, by caller, then by callee.
    pub(super) fn edges(&self) -> Vec<Edge> {
        let made = self.steps_by_list();
        let by_step = self.steps_with_pair_open(&made);
        let by_length = self.lengths_of_outermost(&made);
        assert_eq!(by_step, by_length, "the two readings of an edge's inclusive differ");
        let calls = self.calls_over_pairs(&made);
        calls
            .iter()
            .map(|(pair, &calls)| Edge { caller: pair.0, callee: pair.1, calls, inclusive: by_step[pair] })
            .collect()
    }

    /// A call is one from its body's first step on, so a list without a step counts for nothing.
    fn calls_over_pairs(&self, made: &[u32]) -> Sums {
        let mut sums = Sums::new();
        for (list, &steps) in self.lists.iter().zip(made) {
            if let (Some(pair), true) = (pairs(list).last(), steps > 0) {
                *sums.entry(pair).or_default() += 1;
            }
        }
        sums
    }

    /// A step counts once for a pair, however often that pair is open.
    fn steps_with_pair_open(&self, made: &[u32]) -> Sums {
        let mut sums = Sums::new();
        for (list, &steps) in self.lists.iter().zip(made) {
            let open: BTreeSet<Pair> = pairs(list).collect();
            for pair in open {
                *sums.entry(pair).or_default() += steps;
            }
        }
        sums
    }

    /// The sum of the lengths of those calls over each pair that found no other one open.
    fn lengths_of_outermost(&self, made: &[u32]) -> Sums {
        let length = self.lengths(made);
        let mut sums = Sums::new();
        for list in &self.lists {
            let Some(began) = pairs(list).last() else {
                continue;
            };
            let (call, others) = list.split_last().expect("main is always open");
            if pairs(others).all(|pair| pair != began) {
                *sums.entry(began).or_default() += length[call.call];
            }
        }
        sums
    }
}

/// Each open call with the one that it was made in, outermost first. Main has no caller.
fn pairs(list: &[OpenCall]) -> impl Iterator<Item = Pair> + '_ {
    list.windows(2).map(|two| (two[0].function, two[1].function))
}
