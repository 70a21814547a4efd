//! The law for the library: its returned numbers and every byte lent to it, under both limits. Only what
//! the library left is looked at.

use super::law::{broken, must_stay, Rise};
use crate::answer::{Answer, Answers};
use crate::compare::Expected;
use crate::library;
use crate::memory::Lent;
use crate::run::Input;

/// A result sheet begins with a record of so many bytes.
const SHORTEST_SHEET: usize = 10;

type EntryPoint = fn(&Input, &mut Lent) -> u64;

/// What one call of the library returned, and the memories afterwards.
struct Ran {
    value: u64,
    after: Lent,
}

impl Ran {
    fn of(entry: EntryPoint, input: &Input, before: &Lent) -> Ran {
        let mut after = before.clone();
        let value = entry(input, &mut after);
        Ran { value, after }
    }

    /// By the number returned and the result memory; none if no run returns such a number.
    fn answer(&self) -> Option<Answer> {
        let (number, rest) = ((self.value >> 32) as u32, self.value as u32);
        if number > 0 {
            return Some(Answer::Refused(number, rest));
        }
        let sheet = self.after.result.inside().get(..rest as usize & 0xffff)?;
        (sheet.len() >= SHORTEST_SHEET).then(|| Answer::Ended(sheet.to_vec()))
    }
}

/// The library's runs under the lower and the higher limits, without a file or with one.
pub struct TwoRuns {
    lower: Ran,
    higher: Ran,
}

impl TwoRuns {
    pub fn without_file(lower: &Input, higher: &Input, before: &Lent) -> TwoRuns {
        TwoRuns::by(library::run, lower, higher, before)
    }

    pub fn with_file(lower: &Input, higher: &Input, before: &Lent) -> TwoRuns {
        TwoRuns::by(library::graph, lower, higher, before)
    }

    fn by(entry: EntryPoint, lower: &Input, higher: &Input, before: &Lent) -> TwoRuns {
        TwoRuns { lower: Ran::of(entry, lower, before), higher: Ran::of(entry, higher, before) }
    }

    /// The answers under the lower and the higher limits.
    fn answers(&self) -> Option<(Answer, Answer)> {
        Some((self.lower.answer()?, self.higher.answer()?))
    }

    /// None if the law holds, else how it is broken. Both runs were lent the same bytes, so where the
    /// answer has to stay, every memory has to be the same, that of the file among them.
    pub fn broken(&self, rise: &Rise) -> Option<String> {
        let Some((lower, higher)) = self.answers() else {
            return Some(format!("returned {:#x} and {:#x}", self.lower.value, self.higher.value));
        };
        if let Some(how) = broken(rise, &lower, &higher) {
            return Some(how.to_string());
        }
        let memories = self.lower.after.differences(&self.higher.after);
        let unlike = self.lower.value != self.higher.value || !memories.is_empty();
        let stays = must_stay(rise, &lower);
        (stays && unlike).then(|| format!("the same answer, but other numbers or memories: {memories:?}"))
    }

    /// None if the library did as this program says under both limits.
    pub fn disagreement(&self, before: &Lent, lower: &Expected, higher: &Expected) -> Option<String> {
        let lower = lower.difference(self.lower.value, before, &self.lower.after);
        lower.or_else(|| higher.difference(self.higher.value, before, &self.higher.after))
    }
}

/// What this program expects of the two entry points.
pub fn expected(answers: &Answers) -> [Expected<'_>; 2] {
    [
        Expected { answer: &answers.without_file, file: &[] },
        Expected { answer: &answers.with_file, file: &answers.graph.file },
    ]
}
