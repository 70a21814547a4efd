//! How often each outcome was met.

use crate::answer::Answer;

pub const BEHAVIOURS: [&str; 4] = ["normal", "return", "exit", "failure"];

#[derive(Clone, Default)]
pub struct Outcomes {
    /// By behaviour, then result.
    pub ended: [[u64; 2]; 4],
    /// By number.
    pub refused: [u64; 15],
}

impl Outcomes {
    pub fn add(&mut self, answer: &Answer) {
        match answer {
            // Behaviour and result are the first payload bytes of the result sheet.
            Answer::Ended(sheet) => self.ended[sheet[4] as usize][sheet[5] as usize] += 1,
            Answer::Refused(number, _) => self.refused[*number as usize] += 1,
        }
    }

    pub fn merge(&mut self, other: &Outcomes) {
        for (mine, others) in self.ended.iter_mut().flatten().zip(other.ended.iter().flatten()) {
            *mine += others;
        }
        for (mine, others) in self.refused.iter_mut().zip(&other.refused) {
            *mine += others;
        }
    }

    pub fn total(&self) -> u64 {
        self.ended.iter().flatten().sum::<u64>() + self.refused.iter().sum::<u64>()
    }

    /// Those that were met, in words.
    pub fn words(&self) -> Vec<String> {
        let mut words = Vec::new();
        for (behaviour, counts) in BEHAVIOURS.iter().zip(&self.ended) {
            for (result, count) in [("true", counts[1]), ("false", counts[0])] {
                words.push((format!("end {behaviour} {result}"), count));
            }
        }
        words.extend((0..).zip(&self.refused).map(|(number, &count)| (format!("refused {number}"), count)));
        words.retain(|(_, count)| *count > 0);
        words.into_iter().map(|(outcome, count)| format!("{outcome} {count}")).collect()
    }
}
