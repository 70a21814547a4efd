//! Counts of outcomes, and how far the graphs reach.

use crate::answer::{Answers, Graph};
use crate::outcomes::{Outcomes, BEHAVIOURS};
use std::fmt;

#[derive(Clone, Default)]
pub struct Tally {
    without_file: Outcomes,
    with_file: Outcomes,
    graphs: Graphs,
}

#[derive(Clone, Default)]
struct Graphs {
    /// Runs in which some pair was met.
    with_edges: u64,
    most_edges: usize,
    most_calls: u32,
    most_inclusive: u32,
    longest_file: usize,
}

/// Refusals that no run of either sort gives.
const FOREIGN: std::ops::Range<usize> = 11..14;

impl Tally {
    pub fn add(&mut self, answers: &Answers) {
        self.without_file.add(&answers.without_file);
        self.with_file.add(&answers.with_file);
        self.graphs.add(&answers.graph);
    }

    pub fn merge(&mut self, other: &Tally) {
        self.without_file.merge(&other.without_file);
        self.with_file.merge(&other.with_file);
        self.graphs.merge(&other.graphs);
    }
}

impl Graphs {
    fn add(&mut self, graph: &Graph) {
        let calls = graph.edges.iter().map(|edge| edge.calls);
        let inclusive = graph.edges.iter().map(|edge| edge.inclusive);
        self.merge(&Graphs {
            with_edges: u64::from(!graph.edges.is_empty()),
            most_edges: graph.edges.len(),
            most_calls: calls.max().unwrap_or(0),
            most_inclusive: inclusive.max().unwrap_or(0),
            longest_file: graph.file.len(),
        });
    }

    fn merge(&mut self, other: &Graphs) {
        self.with_edges += other.with_edges;
        self.most_edges = self.most_edges.max(other.most_edges);
        self.most_calls = self.most_calls.max(other.most_calls);
        self.most_inclusive = self.most_inclusive.max(other.most_inclusive);
        self.longest_file = self.longest_file.max(other.longest_file);
    }
}

impl fmt::Display for Tally {
    fn fmt(&self, out: &mut fmt::Formatter) -> fmt::Result {
        let (without, with) = (&self.without_file, &self.with_file);
        writeln!(out, "outcome: runs without a file, runs with one")?;
        for (number, behaviour) in BEHAVIOURS.iter().enumerate() {
            for (result, word) in [(1, "true"), (0, "false")] {
                let (without, with) = (without.ended[number][result], with.ended[number][result]);
                writeln!(out, "end {behaviour} {word} {without} {with}")?;
            }
        }
        for number in (1..without.refused.len()).filter(|number| !FOREIGN.contains(number)) {
            writeln!(out, "refused {number} {} {}", without.refused[number], with.refused[number])?;
        }
        let graphs = &self.graphs;
        writeln!(out, "graphs with edges {}, most edges {}", graphs.with_edges, graphs.most_edges)?;
        writeln!(
            out,
            "most calls over an edge {}, highest inclusive {}",
            graphs.most_calls, graphs.most_inclusive
        )?;
        writeln!(out, "longest file {} bytes", graphs.longest_file)
    }
}
