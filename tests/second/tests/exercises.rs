//! The class exercises, with step counts worked out by hand.

mod common;

use common::*;
use second::answer::Answer;

const WIDE: [u64; 3] = [10, 10, 1_000];

/// Exercise A under a stack limit and a budget.
fn answer_a(stack_limit: u64, budget: u64) -> Answer {
    let (program, call) = exercise_a(stack_limit, budget);
    program.main(call)
}

#[test]
fn exercise_a_ends() {
    let end = Ended::of(answer_a(3, 37));
    assert_eq!(end.end(), (NORMAL, true, 37));
    // Two levels of eleven steps, the last of nine.
    assert_eq!(end.functions, [[1, 6, 37], [3, 31, 31]]);
    assert!(end.output.is_empty() && end.variables.is_empty());
}

#[test]
fn exercise_a_with_one_step_less() {
    assert_eq!(answer_a(3, 36), Answer::Refused(6, 8));
}

#[test]
fn exercise_a_at_the_stack_limit() {
    let end = Ended::of(answer_a(2, 37));
    assert_eq!(end.end(), (FAILURE, true, 28));
    assert_eq!(end.functions, [[1, 6, 28], [2, 22, 22]]);
}

/// A program with foo: false, then echo here.
fn with_foo() -> Program {
    let mut program = Program::new(WIDE);
    let no = program.command("false", &[]);
    let here = program.command("echo", &["here"]);
    let body = program.sheet.put(18, &[no, here]);
    program.function("foo", body);
    program
}

#[test]
fn foo_under_a_condition() {
    let mut program = with_foo();
    let test = program.call("foo");
    let yes = program.command("echo", &["yes"]);
    let no = program.command("echo", &["no"]);
    let whole = program.sheet.put(21, &[test, yes, no]);
    let end = program.ends(whole);
    assert_eq!(end.end(), (NORMAL, true, 14));
    assert_eq!(end.output, b"here\nyes\n");
    assert_eq!(end.functions, [[1, 7, 14], [1, 7, 7]]);
}

#[test]
fn foo_bare() {
    let mut program = with_foo();
    let call = program.call("foo");
    let end = program.ends(call);
    assert_eq!(end.end(), (EXIT, false, 5));
    assert!(end.output.is_empty());
    assert_eq!(end.functions, [[1, 2, 5], [1, 3, 3]]);
}

#[test]
fn not_lets_exit_through() {
    let mut program = Program::new(WIDE);
    let exit = program.sheet.put(28, &[0]);
    let not = program.sheet.put(20, &[exit]);
    assert_eq!(program.ends(not).end(), (EXIT, true, 2));
}

#[test]
fn while_true_fails_after_three_bodies() {
    let mut program = Program::new([3, 0, 1_000]);
    let test = program.command("true", &[]);
    let body = program.command("echo", &[]);
    let whole = program.sheet.put(27, &[test, body]);
    let end = program.ends(whole);
    // The while, four tests and three bodies of two steps each.
    assert_eq!(end.end(), (FAILURE, true, 1 + 4 * 2 + 3 * 2));
    assert_eq!(end.output, b"\n\n\n");
}

#[test]
fn while_false_needs_no_loop() {
    let mut program = Program::new([0, 0, 1_000]);
    let test = program.command("false", &[]);
    let whole = program.sheet.put(27, &[test, test]);
    assert_eq!(program.ends(whole).end(), (NORMAL, true, 3));
}

#[test]
fn shift_without_arguments() {
    for (count, end) in [(0, (NORMAL, true, 1)), (1, (EXIT, false, 1))] {
        let mut program = Program::new(WIDE);
        let shift = program.sheet.put(30, &[count]);
        assert_eq!(program.ends(shift).end(), end);
    }
}

#[test]
fn embedded_false_sets_and_exits() {
    let mut program = Program::new(WIDE);
    let no = program.command("false", &[]);
    let string = program.sheet.put(4, &[no]);
    let assign = program.assign("x", string);
    let end = program.ends(assign);
    assert_eq!(end.end(), (EXIT, false, 4));
    assert_eq!(end.variables, [Variable { mark: false, name: b"x".to_vec(), value: vec![] }]);
}

/// x set from texts of 32 and so many bytes; the join is record 2.
fn join_of(right: usize) -> Answer {
    let mut program = Program::new(WIDE);
    let left = program.sheet.text(&[b'l'; 32]);
    let right = program.sheet.text(&vec![b'r'; right]);
    let join = program.sheet.put(5, &[left, right]);
    let assign = program.assign("x", join);
    program.main(assign)
}

#[test]
fn joins() {
    let end = Ended::of(join_of(31));
    assert_eq!(end.end(), (NORMAL, true, 4));
    assert_eq!(end.variables[0].value, [vec![b'l'; 32], vec![b'r'; 31]].concat());
    assert_eq!(join_of(32), Answer::Refused(7, 2));
}

#[test]
fn fields() {
    let list_of = |fields: usize| {
        let mut program = Program::new(WIDE);
        let echo = program.command("echo", &vec!["a"; fields]);
        (program, echo)
    };
    let (program, echo) = list_of(16);
    let end = program.ends(echo);
    assert_eq!(end.end(), (NORMAL, true, 1 + 2 * 16 + 1));
    assert_eq!(end.output, [b"a ".repeat(15), b"a\n".to_vec()].concat());
    // The list is written from its end, so the 17th field is the list record made first: number 2.
    let (program, echo) = list_of(17);
    assert_eq!(program.main(echo), Answer::Refused(8, 2));
}

#[test]
fn streams() {
    let mut program = Program::new(WIDE);
    let line = program.command("echo", &[&"s".repeat(63)]);
    // Four doublings make sixteen lines.
    let all = (0..4).fold(line, |inner, _| program.sheet.put(18, &[inner, inner]));
    let mut longer = Program { sheet: program.sheet.clone(), ..Program::new(WIDE) };
    let end = program.ends(all);
    assert_eq!(end.end(), (NORMAL, true, 15 + 16 * 4));
    assert_eq!(end.output.len(), 1_024);
    let last = longer.command("echo", &[]);
    let both = longer.sheet.put(18, &[all, last]);
    assert_eq!(longer.main(both), Answer::Refused(9, last.into()));
}

/// So many subshells around record 2, `true`.
fn subshells(depth: usize) -> Answer {
    let mut program = Program::new(WIDE);
    let yes = program.command("true", &[]);
    assert_eq!(yes, 2);
    let all = (0..depth).fold(yes, |inner, _| program.sheet.put(19, &[inner]));
    program.main(all)
}

#[test]
fn holds() {
    assert_eq!(Ended::of(subshells(10)).end(), (NORMAL, true, 12));
    // The innermost subshell is the eleventh hold.
    assert_eq!(subshells(11), Answer::Refused(10, 3));
}

#[test]
fn return_at_main_stays() {
    let mut program = Program::new(WIDE);
    let back = program.sheet.put(29, &[1]);
    assert_eq!(program.ends(back).end(), (RETURN, false, 1));
}
