//! Programs for the call graph: which of them, and what their functions are called.

use super::maker::Maker;
use super::{one_of, Family};
use crate::random::Random;

/// What they are aimed at, with weights.
const GRAPHS: [(usize, Family); 5] = [
    (30, Maker::mesh),
    (90, Maker::tangle),
    (50, Maker::paths),
    (25, Maker::digits),
    (20, Maker::aimed_calls),
];
/// Names that a reader of the file might trip over.
const ODD_NAMES: [&str; 10] =
    ["main", "main", "_", "fn", "cfn", "calls", "totals", "summary", "Steps", "echo"];
const LONGEST_NAME: usize = 63;

impl Maker {
    pub fn graph(&mut self, random: &mut Random) -> u16 {
        one_of(&GRAPHS, random)(self)
    }

    /// So many names, no two alike.
    pub fn function_names(&mut self, count: usize) -> Vec<String> {
        let manner = self.random.below(4);
        let mut names: Vec<String> = (0..count).map(|number| self.function_name(manner, number)).collect();
        if self.random.chance(300) {
            let place = self.random.below(count);
            names[place] = self.random.pick(&ODD_NAMES).to_string();
        }
        names
    }

    /// Short, as long as can be, or of any length.
    fn function_name(&mut self, manner: usize, number: usize) -> String {
        let length = match manner {
            0 | 1 => 0,
            2 => LONGEST_NAME,
            _ => self.random.between(1, LONGEST_NAME),
        };
        // The number comes first, so that only the ends are alike.
        format!("{:x<length$}", format!("f{number}_"))
    }

    /// A function that nothing calls, now and then.
    pub fn uncalled(&mut self) {
        if self.functions.len() < 32 && self.random.chance(150) {
            let body = self.bare("true");
            self.fresh_function(body);
        }
    }
}
