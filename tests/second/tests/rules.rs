//! Rules that are easily got wrong, and the order of refusals.

mod common;

use common::*;
use second::answer::Answer;
use second::generate::generate;
use second::memory::Lent;
use second::random::Random;
use second::run::{on_large_stack, run, Input, FILE_SIZE, RESULT_SIZE, WORK_SIZE};
use second::writer::{argument_sheet, Sheet};

const WIDE: [u64; 3] = [10, 10, 1_000];

#[test]
fn second_side_starts_from_the_pipes_context() {
    let mut program = Program::new(WIDE);
    let one = program.sheet.text(b"one");
    let first = program.assign("x", one);
    let name = program.sheet.text(b"x");
    let variable = program.sheet.put(2, &[name]);
    let list = program.sheet.put(6, &[]);
    let list = program.sheet.put(7, &[variable, list]);
    let second = program.utility("echo", list);
    let pipe = program.sheet.put(23, &[first, second]);
    let end = program.ends(pipe);
    assert_eq!(end.output, b"\n");
    assert!(end.variables.is_empty());
    assert_eq!(end.end(), (NORMAL, true, 7));
}

#[test]
fn nothing_catches_failure() {
    for kind in [19, 20, 21] {
        let mut program = Program::new([0, 0, 1_000]);
        let yes = program.command("true", &[]);
        let fails = program.sheet.put(27, &[yes, yes]);
        let numbers: &[u16] = if kind == 21 { &[fails, yes, yes] } else { &[fails] };
        let whole = program.sheet.put(kind, numbers);
        assert_eq!(program.ends(whole).end(), (FAILURE, true, 4));
    }
}

/// x set from an embedded command that writes 64 bytes and a newline and then does one thing more; with
/// the number of the embedded record.
fn long_value(fails: bool) -> (Answer, u16) {
    let mut program = Program::new([0, 0, 1_000]);
    let echo = program.command("echo", &[&"w".repeat(32), &"w".repeat(31)]);
    let yes = program.command("true", &[]);
    let failing = program.sheet.put(27, &[yes, yes]);
    let both = program.sheet.put(18, &[echo, if fails { failing } else { yes }]);
    let string = program.sheet.put(4, &[both]);
    let assign = program.assign("x", string);
    (program.main(assign), string)
}

#[test]
fn error_goes_ahead_of_a_long_string() {
    let end = Ended::of(long_value(true).0);
    // Assign, embedded, sequence, six for echo, while, two for its test.
    assert_eq!(end.end(), (FAILURE, true, 12));
    assert!(end.variables.is_empty());
    let (answer, string) = long_value(false);
    assert_eq!(answer, Answer::Refused(7, string.into()));
}

#[test]
fn mutual_recursion_counts_each_step_once() {
    let mut program = Program::new([0, 4, 1_000]);
    let to_g = program.call("g");
    let to_f = program.call("f");
    program.function("f", to_g);
    program.function("g", to_f);
    let end = program.ends(to_f);
    // Four bodies of two steps; the fifth call meets the limit after its list.
    assert_eq!(end.end(), (FAILURE, true, 10));
    assert_eq!(end.functions, [[1, 2, 10], [2, 4, 8], [2, 4, 6]]);
}

#[test]
fn env_goes_by_slot_and_mark() {
    let mut program = Program::new(WIDE);
    let (x, y) = (program.sheet.text(b"x"), program.sheet.text(b"y"));
    let one = program.sheet.text(b"1");
    let mark_y = program.sheet.put(17, &[y]);
    let set_x = program.sheet.put(16, &[x, one]);
    let set_y = program.sheet.put(16, &[y, one]);
    let mark_x = program.sheet.put(17, &[x]);
    let env = program.command("env", &[]);
    let all = [set_x, mark_y, env, mark_x, env, set_y];
    let whole = all.into_iter().rfold(env, |rest, first| program.sheet.put(18, &[first, rest]));
    let end = program.ends(whole);
    assert_eq!(end.output, b"x=1\ny=1\nx=1\n");
    let names: Vec<&[u8]> = end.variables.iter().map(|variable| &variable.name[..]).collect();
    assert_eq!(names, [b"y", b"x"]);
    assert!(end.variables.iter().all(|variable| variable.mark));
}

/// A sheet that is good: exit success.
fn good() -> Sheet {
    let mut sheet = Sheet::default();
    sheet.put(28, &[0]);
    sheet.put(33, &[0]);
    sheet
}

fn answer(sheet: &[u8], arguments: &[u8], limits: [u64; 3], sizes: [usize; 2]) -> Answer {
    let [loop_limit, stack_limit, budget] = limits;
    run(sheet, arguments, &[], loop_limit, stack_limit, budget, sizes[0], sizes[1])
}

#[test]
fn refusals_come_in_their_order() {
    let arguments = argument_sheet(&[b"x".to_vec()]);
    let (sizes, limits) = ([RESULT_SIZE, WORK_SIZE], [65_535, 10, 1_000_000]);
    let long = vec![0; 8_193];
    let sheet = good().bytes();
    assert_eq!(answer(&long, &[], [65_536, 0, 1], [4_095, WORK_SIZE]), Answer::Refused(1, 0));
    assert_eq!(answer(&long, &[], limits, [RESULT_SIZE, 65_537]), Answer::Refused(1, 0));
    assert_eq!(answer(&long, &[], [65_536, 10, 1], sizes), Answer::Refused(2, 0));
    assert_eq!(answer(&long, &[], [0, 11, 1], sizes), Answer::Refused(2, 0));
    assert_eq!(answer(&long, &[], [0, 0, 0], sizes), Answer::Refused(2, 0));
    assert_eq!(answer(&long, &[], [0, 0, 1_000_001], sizes), Answer::Refused(2, 0));
    assert_eq!(answer(&long, &[], limits, sizes), Answer::Refused(3, 0));
    assert_eq!(answer(&long[1..], &[], limits, sizes), Answer::Refused(4, 0));
    assert_eq!(answer(&sheet, &[], limits, sizes), Answer::Refused(5, 0));
    assert!(matches!(answer(&sheet, &arguments, limits, [5_000, WORK_SIZE]), Answer::Ended(_)));
}

#[test]
fn places_of_wrong_records() {
    let arguments = argument_sheet(&[b"x".to_vec()]);
    let refused = |sheet: &Sheet, more: &[u8]| {
        answer(&[sheet.bytes(), more.to_vec()].concat(), &arguments, WIDE, [RESULT_SIZE, WORK_SIZE])
    };
    assert_eq!(refused(&Sheet::default(), &[]), Answer::Refused(4, 0));
    assert_eq!(refused(&good(), &[0]), Answer::Refused(4, 2));
    let mut sheet = good();
    sheet.records.pop();
    assert_eq!(refused(&sheet, &[]), Answer::Refused(4, 1));
    assert_eq!(refused(&sheet, &[2, 0, 33, 0, 0]), Answer::Refused(4, 1));
    for main_last in [false, true] {
        let mut sheet = Sheet::default();
        sheet.put(28, &[0]);
        for _ in 1..511 {
            sheet.text(b"");
        }
        if main_last {
            sheet.put(33, &[0]);
            assert!(matches!(refused(&sheet, &[]), Answer::Ended(_)));
        } else {
            sheet.text(b"");
            assert_eq!(refused(&sheet, &[]), Answer::Refused(4, 512));
        }
        assert_eq!(refused(&sheet, &[0]), Answer::Refused(3, 512));
    }
}

#[test]
fn memories_after_each_answer() {
    let input = Input {
        sheet: good().bytes(),
        arguments: Vec::new(),
        input: Vec::new(),
        loop_limit: 0,
        stack_limit: 0,
        budget: 1,
        result_size: 5_000,
        work_size: WORK_SIZE,
        file_size: FILE_SIZE,
    };
    let before = Lent::new(&input, &mut Random::new(1, 1));
    let untouched: [&str; 0] = [];
    let refused = |number: u32| before.after(&Answer::Refused(number, 0), &[]).differences(&before);
    assert_eq!(refused(1), untouched);
    assert_eq!(refused(14), untouched);
    assert_eq!(refused(2), ["work memory"]);
    assert_eq!(refused(6), ["work memory"]);
    let after = before.after(&Answer::Ended(vec![7; 30]), &[8; 200]);
    assert_eq!(after.result.inside()[..30], [7; 30]);
    assert_eq!(after.result.inside()[30..], before.result.inside()[30..]);
    assert_eq!(after.file.inside()[..200], [8; 200]);
    assert_eq!(after.file.inside()[200..], before.file.inside()[200..]);
    assert!(after.work.inside().iter().all(|&byte| byte == 0));
}

#[test]
fn inputs_are_fixed_by_seed_and_index() {
    on_large_stack(|| {
        for index in 0..200 {
            assert_eq!(generate(5, index), generate(5, index));
        }
        assert_ne!(generate(5, 0), generate(6, 0));
    });
}
