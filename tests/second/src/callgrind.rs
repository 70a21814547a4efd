//! The call graph as a file in Callgrind's format.

use crate::profile::{Counts, Edge, Figures};
use crate::tree::Program;

/// The events are steps. Numbers of names are those of the functions plus 1, as the format's own
/// begin at 1, and main has a name that no function can have.
pub fn callgrind_file(program: &Program, figures: &Figures) -> Vec<u8> {
    let mut file = Vec::new();
    for words in ["# callgrind format", "version: 1", "creator: colis-runner", "positions: line"] {
        line(&mut file, words);
    }
    line(&mut file, "events: Steps");
    line(&mut file, &format!("summary: {}", figures.steps));
    line(&mut file, "");
    line(&mut file, "fl=(1) ???");
    line(&mut file, "fn=(1) (main)");
    for (position, function) in program.functions.iter().enumerate() {
        // Names are letters, digits and underscores.
        let name = String::from_utf8_lossy(&function.name);
        line(&mut file, &format!("fn=({}) {name}", position + 2));
    }
    for (number, counts) in figures.counts.iter().enumerate() {
        line(&mut file, "");
        let from_here = figures.edges.iter().filter(|edge| edge.caller == number);
        block(&mut file, number, counts, from_here);
    }
    line(&mut file, "");
    line(&mut file, &format!("totals: {}", figures.steps));
    file
}

/// The own count comes first, as a cost behind a call would be taken for that call's.
fn block<'a>(file: &mut Vec<u8>, number: usize, counts: &Counts, edges: impl Iterator<Item = &'a Edge>) {
    line(file, &format!("fn=({})", number + 1));
    line(file, &format!("0 {}", counts.own));
    for edge in edges {
        line(file, &format!("cfn=({})", edge.callee + 1));
        line(file, &format!("calls={} 0", edge.calls));
        line(file, &format!("0 {}", edge.inclusive));
    }
}

fn line(file: &mut Vec<u8>, words: &str) {
    file.extend_from_slice(words.as_bytes());
    file.push(b'\n');
}
