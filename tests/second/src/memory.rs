//! Lent memories between guard bytes, and what a run promises about them.

use crate::answer::Answer;
use crate::random::Random;
use crate::run::Input;

const GUARD: usize = 64;

/// A memory with guard bytes on both sides. It begins at varying addresses.
#[derive(Clone, PartialEq, Eq)]
pub struct Fenced {
    bytes: Vec<u8>,
    begin: usize,
    length: usize,
}

impl Fenced {
    pub fn noise(length: usize, random: &mut Random) -> Fenced {
        let begin = GUARD + random.below(16);
        let mut bytes = vec![0; begin + length + GUARD];
        random.fill(&mut bytes);
        Fenced { bytes, begin, length }
    }

    pub fn holding(content: &[u8], random: &mut Random) -> Fenced {
        let mut fenced = Fenced::noise(content.len(), random);
        fenced.inside_mut().copy_from_slice(content);
        fenced
    }

    pub fn inside(&self) -> &[u8] {
        &self.bytes[self.begin..self.begin + self.length]
    }

    pub fn inside_mut(&mut self) -> &mut [u8] {
        &mut self.bytes[self.begin..self.begin + self.length]
    }
}

/// Everything lent to one run.
#[derive(Clone, PartialEq, Eq)]
pub struct Lent {
    pub sheet: Fenced,
    pub arguments: Fenced,
    pub input: Fenced,
    pub result: Fenced,
    pub work: Fenced,
    /// Lies beside a run without a file.
    pub file: Fenced,
}

impl Lent {
    pub fn new(input: &Input, random: &mut Random) -> Lent {
        Lent {
            sheet: Fenced::holding(&input.sheet, random),
            arguments: Fenced::holding(&input.arguments, random),
            input: Fenced::holding(&input.input, random),
            result: Fenced::noise(input.result_size, random),
            work: Fenced::noise(input.work_size, random),
            file: Fenced::noise(input.file_size, random),
        }
    }

    /// What the memories hold after a run that gave this answer, with this file if it wrote one.
    pub fn after(&self, answer: &Answer, file: &[u8]) -> Lent {
        let mut after = self.clone();
        match answer {
            // The size of a memory is what these refuse.
            Answer::Refused(1 | 14, _) => return after,
            Answer::Refused(..) => {}
            Answer::Ended(sheet) => {
                after.result.inside_mut()[..sheet.len()].copy_from_slice(sheet);
                after.file.inside_mut()[..file.len()].copy_from_slice(file);
            }
        }
        after.work.inside_mut().fill(0);
        after
    }

    /// The names of the memories that differ, guard bytes included.
    pub fn differences(&self, other: &Lent) -> Vec<&'static str> {
        let pairs = [
            ("sheet", self.sheet == other.sheet),
            ("arguments", self.arguments == other.arguments),
            ("input", self.input == other.input),
            ("result memory", self.result == other.result),
            ("work memory", self.work == other.work),
            ("file memory", self.file == other.file),
        ];
        pairs.iter().filter(|(_, equal)| !equal).map(|(name, _)| *name).collect()
    }
}
