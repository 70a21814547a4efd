//! The generator: an input for each seed and index. A program is aimed at some limit; then it may be
//! damaged, given odd limits or memories, or a budget about what it needs.

mod alike;
mod calls;
mod codes;
mod compared;
mod counts;
mod crowd;
mod damage;
mod digits;
mod endings;
mod expressions;
mod graph;
mod heavy;
mod limits;
mod long;
mod loops;
mod maker;
mod mesh;
mod newlines;
mod numbers;
mod odd;
mod paths;
mod program;
mod restores;
mod results;
mod sides;
mod streams;
mod tangle;
mod uses;
mod wrap;
mod writers;

use crate::random::Random;
use crate::run::Input;
use maker::Maker;

/// One program in so many runs long.
const LONG_RUNS: usize = 600;
/// The budget for finding out what a run needs.
pub const TRIAL_BUDGET: u64 = 2_000;
/// One input in so many is made for the newlines at the end of embedded commands.
const NEWLINES: u64 = 6;
/// One of the others in so many is made for the call graph.
const GRAPHS: u64 = 5;
/// Keep the numbers that make newlines, graphs and file memories apart from those of the other inputs.
const NEWLINE_NUMBERS: u64 = 0x94e6_1b7d_c058_a32f;
const GRAPH_NUMBERS: u64 = 0x6b1d_52ce_9f38_04a7;
const FILE_NUMBERS: u64 = 0xc27f_0e83_5da4_b619;

type Family = fn(&mut Maker) -> u16;

/// What programs are aimed at, with weights.
const FAMILIES: [(usize, Family); 24] = [
    (300, Maker::random_program),
    (60, Maker::aimed_string),
    (60, Maker::aimed_embedded),
    (80, Maker::aimed_list),
    (70, Maker::aimed_stream),
    (80, Maker::aimed_holds),
    (120, Maker::aimed_calls),
    (80, Maker::aimed_loop),
    (100, Maker::aimed_context),
    (40, Maker::aimed_flag),
    (80, Maker::aimed_result),
    (30, Maker::aimed_test),
    (40, Maker::aimed_shift),
    (25, Maker::heavy),
    (12, Maker::deep),
    (20, Maker::shared),
    (45, Maker::counts),
    (150, Maker::aimed_names),
    (160, Maker::aimed_bytes),
    (50, Maker::aimed_numbers),
    (40, Maker::aimed_crowd),
    (50, Maker::aimed_sides),
    (20, Maker::measured),
    (100, Maker::aimed_restores),
];

/// To be called where the native stack is large, as trial runs are made.
pub fn generate(seed: u64, index: u64) -> Input {
    // Each sort is counted by itself, so that no input of another one is left out.
    let before = index / NEWLINES;
    if index % NEWLINES == NEWLINES - 1 {
        return for_newlines(Random::new(seed ^ NEWLINE_NUMBERS, before));
    }
    of_graphs_and_families(seed, index - before)
}

fn of_graphs_and_families(seed: u64, index: u64) -> Input {
    let mut input = match index % GRAPHS {
        0 => for_graph(Random::new(seed ^ GRAPH_NUMBERS, index)),
        _ => of_families(Random::new(seed, index - index / GRAPHS - 1)),
    };
    odd::odd_file_memory(&mut input, &mut Random::new(seed ^ FILE_NUMBERS, index));
    input
}

fn of_families(mut random: Random) -> Input {
    let mut maker = Maker::new(Random::new(random.next(), 0));
    if random.chance(30) {
        maker.pad();
    }
    let long = random.below(LONG_RUNS) == 0;
    let family = if long { Maker::long } else { one_of(&FAMILIES, &mut random) };
    let main = family(&mut maker);
    let mut input = maker.finish(main);
    if !long {
        spoil(&mut input, &mut random);
        if random.chance(220) {
            aim_budget(&mut input, &mut random);
        }
    }
    input
}

/// Few are spoilt, as only a run that ends has a graph.
fn for_graph(mut random: Random) -> Input {
    let mut maker = Maker::new(Random::new(random.next(), 0));
    let main = maker.graph(&mut random);
    let mut input = maker.finish(main);
    change_few(&mut input, &mut random, 10);
    input
}

/// Few are spoilt here too, as the rule shows only in runs that come to the embedded command.
fn for_newlines(mut random: Random) -> Input {
    let mut maker = Maker::new(Random::new(random.next(), 0));
    if random.chance(30) {
        maker.pad();
    }
    let main = maker.newlines(&mut random);
    let mut input = maker.finish(main);
    change_few(&mut input, &mut random, 20);
    odd::odd_file_memory(&mut input, &mut random);
    input
}

/// A good input whose end hangs on its limits. It is none of those that are compared by index.
pub fn generate_for_limits(mut random: Random) -> Input {
    let mut maker = Maker::new(Random::new(random.next(), 0));
    let main = maker.aimed_limits();
    maker.finish(main)
}

/// One of the families, by its weight.
fn one_of(families: &[(usize, Family)], random: &mut Random) -> Family {
    let weights: Vec<usize> = families.iter().map(|(weight, _)| *weight).collect();
    families[random.weighted(&weights)].1
}

/// Spoils one input in so many, and aims the budget of another.
fn change_few(input: &mut Input, random: &mut Random, one_in: usize) {
    match random.below(one_in) {
        0 => spoil(input, random),
        1 => aim_budget(input, random),
        _ => {}
    }
}

/// Leaves most inputs as they are. Faults meet by chance, as their order matters.
fn spoil(input: &mut Input, random: &mut Random) {
    // One input in forty gets many faults at once.
    let many = if random.chance(25) { 400 } else { 0 };
    if random.chance(110 + many) {
        input.sheet = damage::damaged(&input.sheet, random);
    }
    if random.chance(40 + many) {
        input.sheet = damage::mutated(&input.sheet, random);
    }
    if random.chance(10) {
        input.sheet = damage::noise(random);
    }
    if random.chance(35 + many) {
        odd::faulty_arguments(input, random);
    }
    if random.chance(35 + many) {
        odd::odd_limits(input, random);
    }
    if random.chance(20 + many) {
        odd::odd_memories(input, random);
    }
}

/// Sets the budget to what the run needs, one less or one more; a refused run needs the steps up to
/// its refusal.
fn aim_budget(input: &mut Input, random: &mut Random) {
    let budget = input.budget;
    input.budget = TRIAL_BUDGET;
    let steps = input.steps();
    input.budget = match random.below(3) {
        0 => steps,
        1 => steps + 1,
        _ => steps.saturating_sub(1),
    };
    if input.budget == 0 && random.chance(900) {
        input.budget = budget;
    }
}
