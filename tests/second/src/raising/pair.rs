//! Pairs of limits for one input: the lower ones about what the run needs, the higher ones each at
//! least as large.

use super::law::{Limits, Rise, BUDGET, LARGEST, LOOP, STACK};
use crate::answer::Answer;
use crate::generate::{generate, generate_for_limits, TRIAL_BUDGET};
use crate::random::Random;
use crate::run::{Input, RESULT_SIZE, WORK_SIZE};

/// Keeps the numbers that make pairs apart from those that make inputs.
const PAIR_NUMBERS: u64 = 0x3f84_d5b5_b547_0917;
/// So many inputs are looked at for one pair.
const TRIES: usize = 5;
/// Indices of generated inputs are below this power of two.
const INDEX_BITS: u32 = 40;
/// An input with a budget above this is a long run made to measure, which is left so.
const LONG: u64 = 20_000;
/// A run that does not end by itself is given more than so many steps only now and then.
const ENDLESS: u64 = 4_000;

/// Two inputs that differ in their limits alone.
pub struct Pair {
    pub lower: Input,
    pub higher: Input,
    pub rise: Rise,
}

/// How a run goes under the largest loop limit and stack limit and enough budget, and what it takes.
struct Trial {
    answer: Answer,
    needs: Limits,
}

/// To be called where the native stack is large, as trial runs are made.
pub fn pair(seed: u64, index: u64) -> Pair {
    let mut random = Random::new(seed ^ PAIR_NUMBERS, index);
    let (input, trial) = tried_input(seed, &mut random);
    let lower = lower_limits(&input, &trial, &mut random);
    let higher = higher_limits(lower, &trial, &mut random);
    Pair {
        lower: with_limits(&input, lower),
        higher: with_limits(&input, higher),
        rise: Rise { lower, higher },
    }
}

fn with_limits(input: &Input, [loop_limit, stack_limit, budget]: Limits) -> Input {
    Input { loop_limit, stack_limit, budget, ..input.clone() }
}

/// The input's own limits as far as they are accepted.
fn accepted(input: &Input) -> Limits {
    let own = [input.loop_limit, input.stack_limit, input.budget.max(1)];
    [LOOP, STACK, BUDGET].map(|limit| own[limit].min(LARGEST[limit]))
}

/// The first of a few inputs that tells enough, else the last.
fn tried_input(seed: u64, random: &mut Random) -> (Input, Trial) {
    for _ in 1..TRIES {
        let input = any_input(seed, random);
        let trial = tried(&input);
        if random.chance(worth(&trial)) {
            return (input, trial);
        }
    }
    let input = any_input(seed, random);
    let trial = tried(&input);
    (input, trial)
}

/// In how many of 1,000 cases an input with such a trial is taken.
fn worth(trial: &Trial) -> usize {
    match trial.answer {
        // Nothing was evaluated.
        Answer::Refused(1..=5, _) => 30,
        Answer::Refused(6, _) => 400,
        _ if trial.needs[LOOP] == 0 && trial.needs[STACK] == 0 => 300,
        _ => 1_000,
    }
}

/// The memories to be written to are large enough, as a run refused for one of them has no steps; that
/// of the file stays as it is.
fn any_input(seed: u64, random: &mut Random) -> Input {
    let mut input = match random.below(5) {
        0 | 1 => generate_for_limits(Random::new(random.next(), 0)),
        _ => generate(seed, random.next() >> (u64::BITS - INDEX_BITS)),
    };
    input.result_size = input.result_size.max(RESULT_SIZE);
    input.work_size = WORK_SIZE;
    input
}

fn tried(input: &Input) -> Trial {
    let mut limits = accepted(input);
    if limits[BUDGET] <= LONG {
        limits = [LARGEST[LOOP], LARGEST[STACK], limits[BUDGET].max(TRIAL_BUDGET)];
    }
    let (answers, watch) = with_limits(input, limits).watched();
    Trial { answer: answers.without_file, needs: [watch.bodies, watch.calls, watch.steps.max(1)] }
}

fn lower_limits(input: &Input, trial: &Trial, random: &mut Random) -> Limits {
    if random.chance(100) {
        return accepted(input);
    }
    // Of most pairs the answer is to stay, whatever is raised, so most have enough of everything.
    let short = match random.below(100) {
        0..=66 => [false; 3],
        67..=94 => {
            let one = short_of_one(trial, random);
            [LOOP, STACK, BUDGET].map(|limit| limit == one)
        }
        _ => [LOOP, STACK, BUDGET].map(|_| random.chance(500)),
    };
    [LOOP, STACK, BUDGET].map(|limit| {
        if short[limit] {
            too_little(limit, trial.needs[limit], random)
        } else {
            enough(limit, trial, random)
        }
    })
}

/// Mostly a limit of which the run takes something.
fn short_of_one(trial: &Trial, random: &mut Random) -> usize {
    let taken: Vec<usize> = [LOOP, STACK].into_iter().filter(|&limit| trial.needs[limit] > 0).collect();
    if taken.is_empty() || random.chance(250) {
        return BUDGET;
    }
    random.pick(&taken)
}

fn too_little(limit: usize, need: u64, random: &mut Random) -> u64 {
    let low = match random.below(6) {
        0..=2 => need.saturating_sub(1),
        3 => need.saturating_sub(random.between(2, 6) as u64),
        4 => 0,
        _ => random.below(need as usize + 1) as u64,
    };
    low.max(u64::from(limit == BUDGET))
}

fn enough(limit: usize, trial: &Trial, random: &mut Random) -> u64 {
    let need = trial.needs[limit];
    let high = match random.below(8) {
        0..=2 => need,
        3 => need + 1,
        4 => need + random.between(2, 6) as u64,
        5 => 2 * need,
        6 => need + random.below(60) as u64,
        // The largest budget is for runs that end.
        _ if limit == BUDGET && matches!(trial.answer, Answer::Refused(6, _)) => need,
        _ => LARGEST[limit],
    };
    high.min(LARGEST[limit])
}

fn higher_limits(lower: Limits, trial: &Trial, random: &mut Random) -> Limits {
    let chosen = raised_ones(&lower, trial, random);
    let mut higher = lower;
    for limit in [LOOP, STACK, BUDGET] {
        if chosen[limit] {
            higher[limit] = raised(limit, lower[limit], trial.needs[limit], random).min(LARGEST[limit]);
        }
    }
    let endless = matches!(trial.answer, Answer::Refused(6, _)) && lower[BUDGET] <= LONG;
    if endless && !random.chance(4) {
        higher[BUDGET] = higher[BUDGET].min(lower[BUDGET].max(ENDLESS));
    }
    higher
}

/// Which limits are raised: a single one, all, or any of them; often just those that the run is short of.
/// Few pairs have none raised, which is to change nothing either.
fn raised_ones(lower: &Limits, trial: &Trial, random: &mut Random) -> [bool; 3] {
    let short = [LOOP, STACK, BUDGET].map(|limit| lower[limit] < trial.needs[limit]);
    let not_largest = [LOOP, STACK, BUDGET].map(|limit| lower[limit] < LARGEST[limit]);
    let one = single(not_largest, random);
    match random.below(100) {
        0 => [false; 3],
        1..=35 if short.contains(&true) => short,
        36..=65 => [true; 3],
        66..=80 => [LOOP, STACK, BUDGET].map(|limit| limit == one || random.chance(500)),
        _ => [LOOP, STACK, BUDGET].map(|limit| limit == one),
    }
}

/// One of the limits that can be raised, if there is any.
fn single(not_largest: [bool; 3], random: &mut Random) -> usize {
    let which: Vec<usize> = [LOOP, STACK, BUDGET].into_iter().filter(|&limit| not_largest[limit]).collect();
    if which.is_empty() {
        return LOOP;
    }
    random.pick(&which)
}

fn raised(limit: usize, low: u64, need: u64, random: &mut Random) -> u64 {
    let room = LARGEST[limit] - low;
    match random.below(10) {
        0..=2 => low + 1,
        3 => low + random.between(2, 6) as u64,
        4 => need.max(low + 1),
        5 => need.max(low) + 1,
        6 => low + random.below(room as usize + 1) as u64,
        7 => power_above(limit, low, random),
        _ => LARGEST[limit],
    }
}

/// A power of two above this, if one is accepted: a limit that is kept in too few bits shows there.
fn power_above(limit: usize, low: u64, random: &mut Random) -> u64 {
    let first = (low + 1).next_power_of_two();
    let powers = (0..u64::BITS).map(|shift| first.saturating_mul(1 << shift));
    let accepted: Vec<u64> = powers.take_while(|&power| power <= LARGEST[limit]).collect();
    if accepted.is_empty() {
        return low + 1;
    }
    random.pick(&accepted)
}
