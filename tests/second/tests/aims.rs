//! What the generator aims at is met among its first inputs.

mod common;

use common::Ended;
use second::answer::{Answer, Answers};
use second::generate::generate;
use second::profile::Edge;
use second::run::{on_large_stack, Input};
use second::sheet::cut_record;
use std::sync::OnceLock;

const SEED: u64 = 1;
const FIRST: u64 = 24_000;

/// The first inputs with this program's answers, made once for all tests.
fn made() -> &'static [(Input, Answers)] {
    static MADE: OnceLock<Vec<(Input, Answers)>> = OnceLock::new();
    MADE.get_or_init(|| {
        on_large_stack(|| {
            let inputs = (0..FIRST).map(|index| generate(SEED, index));
            inputs.map(|input| (input.clone(), input.answers())).collect()
        })
    })
}

/// How many of the first inputs the question is true of.
fn met(question: impl Fn(&Input, &Answer) -> bool) -> usize {
    made().iter().filter(|(input, answers)| question(input, &answers.without_file)).count()
}

/// How many graphs the question is true of, which is asked about the edges and the file's text.
fn drawn(question: impl Fn(&[Edge], &str) -> bool) -> usize {
    let graphs = made().iter().map(|(_, answers)| &answers.graph);
    graphs.filter(|graph| question(&graph.edges, &String::from_utf8_lossy(&graph.file))).count()
}

/// The steps of a run that ended.
fn steps(answer: &Answer) -> Option<u32> {
    match answer {
        Answer::Ended(sheet) => Some(u32::from_le_bytes([sheet[6], sheet[7], sheet[8], sheet[9]])),
        Answer::Refused(..) => None,
    }
}

#[test]
fn an_input_is_fixed_by_seed_and_index() {
    let again = on_large_stack(|| (0..300).map(|index| generate(SEED, index)).collect::<Vec<_>>());
    assert!(made().iter().zip(&again).all(|((input, _), again)| input == again));
}

#[test]
fn runs_end_with_the_largest_budget_used_up() {
    assert!(met(|_, answer| steps(answer) == Some(1_000_000)) > 0);
    assert!(met(|_, answer| steps(answer).is_some_and(|steps| steps > 999_980)) > 3);
    assert!(met(|input, answer| input.budget == 1_000_000 && matches!(answer, Answer::Refused(6, _))) > 0);
}

#[test]
fn loops_run_to_the_largest_limit() {
    assert!(met(|input, answer| input.loop_limit == 65_535 && steps(answer) == Some(4 * 65_535 + 3)) > 0);
}

#[test]
fn every_refusal_is_met_and_at_high_places() {
    for number in 1..=10 {
        assert!(met(|_, answer| matches!(answer, Answer::Refused(n, _) if *n == number)) > 100, "{number}");
    }
    for number in 6..=10 {
        let high = |_: &Input, answer: &Answer| matches!(answer, Answer::Refused(n, 256..) if *n == number);
        assert!(met(high) > 0, "{number}");
    }
}

#[test]
fn sheets_are_as_long_as_they_may_be_and_longer() {
    assert!(met(|input, answer| input.sheet.len() == 8_192 && steps(answer).is_some()) > 0);
    assert!(met(|input, answer| input.sheet.len() == 8_193 && *answer == Answer::Refused(3, 0)) > 0);
    assert!(met(|_, answer| *answer == Answer::Refused(3, 512)) > 0);
}

#[test]
fn every_pair_of_the_most_functions_is_met() {
    assert!(drawn(|edges, _| edges.len() == 33 * 32) > 3);
    assert!(drawn(|edges, _| edges.len() > 900 && edges.len() < 33 * 32) > 3);
    assert!(drawn(|_, file| file.len() > 28_000) > 0);
}

#[test]
fn edges_have_every_number_of_digits() {
    for power in [1, 10, 100, 1_000, 10_000, 100_000] {
        let of_length = |number: u32| number >= power && number < 10 * power;
        assert!(drawn(|edges, _| edges.iter().any(|edge| of_length(edge.calls))) > 1, "{power}");
        assert!(drawn(|edges, _| edges.iter().any(|edge| of_length(edge.inclusive))) > 3, "{power}");
    }
    assert!(drawn(|_, file| file.contains("totals: 1000000\n")) > 0);
}

#[test]
fn functions_call_themselves_and_each_other() {
    let met = |edges: &[Edge], caller, callee| {
        edges.iter().any(|edge| (edge.caller, edge.callee) == (caller, callee) && edge.calls > 1)
    };
    assert!(drawn(|edges, _| met(edges, 1, 1)) > 200);
    assert!(drawn(|edges, _| met(edges, 1, 2) && met(edges, 2, 1)) > 200);
    assert!(drawn(|edges, _| met(edges, 1, 2) && met(edges, 2, 3) && met(edges, 3, 1)) > 50);
    assert!(drawn(|edges, _| (0..4).all(|caller| met(edges, caller, 2))) > 20);
}

#[test]
fn names_are_as_long_as_they_may_be_and_odd() {
    let long = |line: &str| line.starts_with("fn=(") && line.ends_with(&"x".repeat(50));
    assert!(drawn(|edges, file| !edges.is_empty() && file.lines().any(long)) > 100);
    assert!(drawn(|edges, file| !edges.is_empty() && file.contains(") main\n")) > 50);
    // A function that is never entered, beside one that is.
    assert!(drawn(|edges, file| !edges.is_empty() && file.contains(")\n0 0\n")) > 100);
}

#[test]
fn the_file_memory_is_refused_alone_and_beside_others() {
    let refused = |without: Option<u32>| {
        let number = |answer: &Answer| match answer {
            Answer::Refused(number, _) => Some(*number),
            Answer::Ended(_) => None,
        };
        made()
            .iter()
            .filter(|(_, answers)| number(&answers.without_file) == without)
            .filter(|(_, answers)| number(&answers.with_file) == Some(14))
            .count()
    };
    for without in [None, Some(2), Some(3), Some(4), Some(5), Some(6), Some(10)] {
        assert!(refused(without) > 2, "{without:?}");
    }
    assert!(met(|input, answer| input.file_size < 65_536 && *answer == Answer::Refused(1, 0)) > 20);
}

/// The kind of the record with this number.
fn kind_at(sheet: &[u8], number: u32) -> Option<u16> {
    let mut rest = sheet;
    for _ in 0..number {
        rest = cut_record(rest)?.2;
    }
    cut_record(rest).map(|(kind, _, _)| kind)
}

/// The values of all variables after a run that ended.
fn values(answer: &Answer) -> Vec<Vec<u8>> {
    match answer {
        Answer::Ended(_) => Ended::of(answer.clone()).variables.into_iter().map(|set| set.value).collect(),
        Answer::Refused(..) => Vec::new(),
    }
}

#[test]
fn values_of_embedded_commands_are_as_long_as_they_may_be_and_longer() {
    let too_long = |input: &Input, answer: &Answer| match answer {
        Answer::Refused(7, place) => kind_at(&input.sheet, *place) == Some(4),
        _ => false,
    };
    assert!(met(too_long) > 200);
    let newlines_behind = |input: &Input, kept: usize, newlines: usize| {
        let stream = &input.input;
        stream.len() == kept + newlines && stream[kept..].iter().all(|&byte| byte == b'\n')
    };
    let whole = |input: &Input, answer: &Answer, kept: usize| {
        newlines_behind(input, kept, 1_024 - kept) && values(answer).contains(&input.input[..kept].to_vec())
    };
    assert!(met(|input, answer| whole(input, answer, 63)) > 5);
    assert!(met(|input, answer| whole(input, answer, 24)) > 0);
    assert!(met(|input, answer| whole(input, answer, 0)) > 5);
    assert!(met(|input, answer| newlines_behind(input, 64, 960) && too_long(input, answer)) > 0);
}

#[test]
fn values_end_in_bytes_that_could_be_taken_for_newlines() {
    for byte in [13, 9, 32, 0, 11, 12, 8, 14, 2, 26, 42, 74, 138] {
        // What the input gave, and what stays of it where newlines follow.
        let kept = |input: &Input| {
            let kept = input.input.iter().rposition(|&other| other != b'\n').map_or(0, |last| last + 1);
            (input.input[..kept].to_vec(), input.input.len() - kept)
        };
        let ends_so = |input: &Input, answer: &Answer| {
            let (kept, newlines) = kept(input);
            kept.last() == Some(&byte) && newlines > 0 && values(answer).contains(&kept)
        };
        assert!(met(ends_so) > 1, "{byte}");
    }
}
