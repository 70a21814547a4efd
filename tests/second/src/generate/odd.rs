//! Odd limits, odd memory sizes and faulty argument sheets.

use super::damage::mutated;
use crate::random::Random;
use crate::run::{Input, RESULT_SIZE, WORK_SIZE};
use crate::writer::{argument_sheet, Sheet};

pub fn odd_limits(input: &mut Input, random: &mut Random) {
    match random.below(4) {
        0 => {
            let choices = [0, 65_535, 65_535, 65_536, 65_536, 1 << 32, (1 << 32) + 3, u64::MAX];
            input.loop_limit = random.pick(&choices);
        }
        1 => {
            let choices = [0, 10, 10, 11, 11, 256, 65_536, 1 << 32, (1 << 32) + 3, u64::MAX];
            input.stack_limit = random.pick(&choices);
        }
        2 => {
            let choices = [0, 0, 1, 2, 1_000_000, 1_000_001, 1 << 32, (1 << 32) + 50, u64::MAX];
            input.budget = random.pick(&choices);
            if input.budget == 1_000_000 {
                // A high budget needs a low limit, or the run is long.
                input.loop_limit = input.loop_limit.min(3);
            }
        }
        _ => {
            let length = random.pick(&[1_023, 1_024, 1_024, 1_025, 1_025, 2_000, 70_000]);
            input.input = random.bytes(length);
        }
    }
}

pub fn odd_memories(input: &mut Input, random: &mut Random) {
    if random.chance(500) {
        input.result_size = random.pick(&[0, 1, 4_095, 4_095, 4_096, 4_097, 5_000, 8_192]);
    } else {
        input.work_size = random.pick(&[0, 1, 65_535, 65_536, 65_537, 70_000, 131_072]);
    }
}

/// The file's memory is odd more often where another one is, as their order matters.
pub fn odd_file_memory(input: &mut Input, random: &mut Random) {
    let others_odd = input.result_size < RESULT_SIZE || input.work_size != WORK_SIZE;
    if random.chance(if others_odd { 500 } else { 60 }) {
        let sizes = [0, 1, 40_033, 65_535, 65_535, 65_536, 65_537, 70_000, 131_072];
        input.file_size = random.pick(&sizes);
    }
}

pub fn faulty_arguments(input: &mut Input, random: &mut Random) {
    let text = |length: usize| vec![b'a'; length];
    input.arguments = match random.below(8) {
        0 => Vec::new(),
        1 => argument_sheet(&vec![text(1); 18]),
        2 => argument_sheet(&vec![text(63); 17]),
        3 => argument_sheet(&[text(1), text(random.pick(&[64, 64, 65, 300]))]),
        4 => {
            let mut sheet = Sheet::default();
            sheet.text(b"a");
            sheet.add(random.pick(&[0, 2, 6, 257, 65_535]), b"");
            sheet.bytes()
        }
        5 => {
            let mut bytes = argument_sheet(&[text(3), text(4)]);
            bytes.truncate(random.below(bytes.len()));
            bytes
        }
        6 => {
            let length = random.below(40);
            random.bytes(length)
        }
        _ => mutated(&input.arguments, random),
    };
}
