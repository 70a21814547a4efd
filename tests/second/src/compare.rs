//! Compares the library with this program, input by input, without a file and with one: the answer
//! and every byte lent.

use crate::answer::{Answer, Answers};
use crate::hex::to_hex;
use crate::library;
use crate::memory::Lent;
use crate::random::Random;
use crate::run::Input;
use crate::tally::Tally;
use crate::vectors::{answer_words, input_line};
use crate::workers::{each_input, Inputs};
use std::sync::atomic::{AtomicU64, Ordering};

/// So many differences are shown in full.
const SHOWN: u64 = 5;

#[derive(Default)]
pub struct Comparison {
    pub tally: Tally,
    pub passed: u64,
    pub failed: u64,
}

/// None if the library is not linked in.
pub fn compare(inputs: Inputs) -> Option<Comparison> {
    if !library::LINKED {
        return None;
    }
    let differences = AtomicU64::new(0);
    let parts = each_input(inputs, |part: &mut Comparison, index, input| {
        let answers = input.answers();
        part.tally.add(&answers);
        match difference(inputs.seed, index, input, &answers) {
            None => part.passed += 1,
            Some(words) => {
                part.failed += 1;
                if differences.fetch_add(1, Ordering::Relaxed) < SHOWN {
                    println!("{words}");
                }
            }
        }
    });
    Some(merged(parts.iter()))
}

/// The outcomes by this program alone.
pub fn tally(inputs: Inputs) -> Comparison {
    let parts = each_input(inputs, |part: &mut Comparison, _, input| part.tally.add(&input.answers()));
    merged(parts.iter())
}

fn merged<'a>(parts: impl Iterator<Item = &'a Comparison>) -> Comparison {
    let mut whole = Comparison::default();
    for part in parts {
        whole.tally.merge(&part.tally);
        whole.passed += part.passed;
        whole.failed += part.failed;
    }
    whole
}

/// What one entry point answers.
pub(crate) struct Expected<'a> {
    pub answer: &'a Answer,
    /// Empty without one.
    pub file: &'a [u8],
}

impl Expected<'_> {
    /// What the library must return.
    fn returned(&self) -> u64 {
        match self.answer {
            Answer::Ended(sheet) => ((self.file.len() as u64) << 16) + sheet.len() as u64,
            Answer::Refused(number, place) => (u64::from(*number) << 32) + u64::from(*place),
        }
    }

    /// None if the library, having returned this and left that, did as it must.
    pub fn difference(&self, value: u64, before: &Lent, after: &Lent) -> Option<String> {
        let memories = before.after(self.answer, self.file).differences(after);
        if value == self.returned() && memories.is_empty() {
            return None;
        }
        let library = library_words(value, after);
        Some(format!(
            "  this program {} {}\n  library {library}\n  unlike what was promised: {memories:?}",
            answer_words(self.answer),
            to_hex(self.file)
        ))
    }
}

fn difference(seed: u64, index: u64, input: &Input, answers: &Answers) -> Option<String> {
    // The noise is other than the numbers that made the input.
    let mut random = Random::new(!seed, index);
    let before = Lent::new(input, &mut random);
    let mut after = before.clone();
    let value = library::run(input, &mut after);
    let expected = Expected { answer: &answers.without_file, file: &[] };
    let without_file = expected.difference(value, &before, &after);
    after.clone_from(&before);
    let value = library::graph(input, &mut after);
    let expected = Expected { answer: &answers.with_file, file: &answers.graph.file };
    let with_file = expected.difference(value, &before, &after);
    if without_file.is_none() && with_file.is_none() {
        return None;
    }
    let told = |name: &str, words: Option<String>| {
        words.map_or(String::new(), |words| format!("\n {name}\n{words}"))
    };
    Some(format!(
        "difference at index {index} of seed {seed}, {}\n{} {}{}{}",
        input.sizes(),
        input_line(input),
        answer_words(&answers.without_file),
        told("without a file", without_file),
        told("with a file", with_file)
    ))
}

/// The library's answer in the words of a vector line, and the file.
fn library_words(value: u64, after: &Lent) -> String {
    let (number, place) = ((value >> 32) as u32, value as u32);
    let (file, sheet) = (place as usize >> 16, place as usize & 0xffff);
    match (after.result.inside().get(..sheet), after.file.inside().get(..file)) {
        (Some(sheet), Some(file)) if number == 0 => {
            format!("{} {}", answer_words(&Answer::Ended(sheet.to_vec())), to_hex(file))
        }
        _ => answer_words(&Answer::Refused(number, place)),
    }
}
