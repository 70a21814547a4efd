//! Raising a limit is harmless, lowering it is not: runs judged by hand, and the law on answers made by
//! hand.

mod common;

use common::*;
use second::answer::{Answer, Answers};
use second::raising::law::{always_stays, broken, must_stay, Limits, Rise, LARGEST};
use second::raising::pair::pair;
use second::run::{on_large_stack, Input};

/// The answers of a program that is built anew for each of the limits.
fn under(limits: [u64; 3], build: impl Fn(&mut Program) -> u16) -> Answers {
    let mut program = Program::new(limits);
    let main = build(&mut program);
    program.sheet.put(33, &[main]);
    program.answers()
}

fn end_under(limits: [u64; 3], build: impl Fn(&mut Program) -> u16) -> (u8, bool, u32) {
    Ended::of(under(limits, build).without_file).end()
}

#[test]
fn a_loop_at_its_need_below_and_above() {
    let three = |program: &mut Program| program.while_arguments(3);
    let needed = under([3, 0, 100], three);
    assert_eq!(Ended::of(needed.without_file.clone()).end(), (NORMAL, true, 1 + 4 * 6 + 3));
    for limit in [4, 5, 100, 65_534, 65_535] {
        assert_eq!(under([limit, 0, 100], three), needed, "{limit}");
    }
    // A true test after the last body that the limit allows.
    for limit in 0..3 {
        let steps = 1 + (limit as u32 + 1) * 6 + limit as u32;
        assert_eq!(end_under([limit, 0, 100], three), (FAILURE, true, steps), "{limit}");
    }
}

#[test]
fn each_while_counts_for_itself() {
    // Two loops of two turns each, one behind the other: the second finds its arguments in a function.
    let twice = |program: &mut Program| {
        let body = program.while_arguments(2);
        program.function("f", body);
        let end = program.sheet.put(6, &[]);
        let word = program.sheet.text(b"w");
        let list = (0..2).fold(end, |rest, _| program.sheet.put(7, &[word, rest]));
        let name = program.sheet.text(b"f");
        let call = program.sheet.put(25, &[name, list]);
        program.sheet.put(18, &[body, call])
    };
    let one_loop = 1 + 3 * 6 + 2;
    let needed = under([2, 1, 100], twice);
    assert_eq!(Ended::of(needed.without_file.clone()).end(), (NORMAL, true, 1 + one_loop + 6 + one_loop));
    assert_eq!(under([3, 1, 100], twice), needed);
    assert_eq!(under([4, 2, 101], twice), needed);
    assert_eq!(end_under([1, 1, 100], twice), (FAILURE, true, 1 + 1 + 6 + 1 + 6));
}

/// A loop of one turn, then a call of f, which is `true`: all of loop limit 1, stack limit 1 and budget 19.
fn loop_and_call(program: &mut Program) -> u16 {
    let turn = program.while_arguments(1);
    let yes = program.command("true", &[]);
    program.function("f", yes);
    let call = program.call("f");
    program.sheet.put(18, &[turn, call])
}

#[test]
fn raising_is_harmless_and_lowering_is_not() {
    let one_turn = 1 + 6 + 1 + 6;
    let needed = under([1, 1, 19], loop_and_call);
    assert_eq!(Ended::of(needed.without_file.clone()).end(), (NORMAL, true, 1 + one_turn + 4));
    for loop_limit in [1, 2, 65_535] {
        for stack_limit in [1, 2, 10] {
            for budget in [19, 20, 1_000_000] {
                let limits = [loop_limit, stack_limit, budget];
                assert_eq!(under(limits, loop_and_call), needed, "{limits:?}");
            }
        }
    }
    assert_eq!(end_under([0, 1, 19], loop_and_call), (FAILURE, true, 1 + 1 + 6));
    assert_eq!(end_under([1, 0, 19], loop_and_call), (FAILURE, true, 1 + one_turn + 2));
    // The loop takes nine records, and the empty list of `true` is the next: it does not begin.
    assert_eq!(under([1, 1, 18], loop_and_call).without_file, Answer::Refused(6, 9));
    // A Failure and a refusal that wait for one limit are not helped by the others.
    assert_eq!(under([0, 10, 1_000_000], loop_and_call), under([0, 1, 19], loop_and_call));
    assert_eq!(under([65_535, 0, 1_000_000], loop_and_call), under([1, 0, 19], loop_and_call));
    assert_eq!(under([65_535, 10, 18], loop_and_call), under([1, 1, 18], loop_and_call));
}

#[test]
fn exercise_a_under_higher_stack_limits() {
    let of = |stack_limit: u64, budget: u64| {
        let (mut program, call) = exercise_a(stack_limit, budget);
        program.sheet.put(33, &[call]);
        program.answers()
    };
    let needed = of(3, 37);
    assert_eq!(Ended::of(needed.without_file.clone()).end(), (NORMAL, true, 37));
    for stack_limit in 3..=10 {
        for budget in [37, 38, 1_000, 999_999, 1_000_000] {
            assert_eq!(of(stack_limit, budget), needed, "{stack_limit} {budget}");
        }
    }
    // Main's six steps; then eleven for each f that calls on, whose last call meets the limit.
    for (stack_limit, steps) in [(0, 6), (1, 6 + 11), (2, 6 + 2 * 11)] {
        let end = Ended::of(of(stack_limit, 37).without_file).end();
        assert_eq!(end, (FAILURE, true, steps), "{stack_limit}");
        assert_eq!(of(stack_limit, 1_000_000), of(stack_limit, steps.into()), "{stack_limit}");
    }
    // The last record that begins is the empty list of `true`, number 8.
    assert_eq!(of(3, 36).without_file, Answer::Refused(6, 8));
    assert_eq!(of(10, 36).without_file, Answer::Refused(6, 8));
}

#[test]
fn the_largest_limits_at_their_need() {
    // `while true do true`: the while, then two steps for each test and each body.
    let endless = |program: &mut Program| {
        let yes = program.command("true", &[]);
        program.sheet.put(27, &[yes, yes])
    };
    let turns = 65_535;
    assert_eq!(end_under([turns - 1, 0, 1_000_000], endless), (FAILURE, true, 4 * (turns as u32 - 1) + 3));
    assert_eq!(end_under([turns, 0, 1_000_000], endless), (FAILURE, true, 4 * turns as u32 + 3));
    // The last step is the empty list of the last test, which is written first.
    assert_eq!(under([turns, 0, 4 * turns + 2], endless).without_file, Answer::Refused(6, 0));
    assert_eq!(end_under([turns, 0, 4 * turns + 3], endless), (FAILURE, true, 4 * turns as u32 + 3));
}

#[test]
fn a_long_run_at_its_need() {
    // `shift 0`, record 0, doubled 18 times and 17 times: each doubling is twice the steps and one more.
    let long = |program: &mut Program| {
        let shift = program.sheet.put(30, &[0]);
        let half = (0..17).fold(shift, |inner, _| program.sheet.put(18, &[inner, inner]));
        let all = program.sheet.put(18, &[half, half]);
        program.sheet.put(18, &[all, half])
    };
    let needed = 1 + ((1 << 19) - 1) + ((1 << 18) - 1);
    assert_eq!(end_under([0, 0, needed], long), (NORMAL, true, needed as u32));
    assert_eq!(under([0, 0, needed + 1], long), under([0, 0, needed], long));
    assert_eq!(under(LARGEST, long), under([0, 0, needed], long));
    assert_eq!(under([65_535, 10, needed - 1], long).without_file, Answer::Refused(6, 0));
}

#[test]
fn the_budget_stops_each_record_at_its_turn() {
    // The sequence, the while, test, shift, test; the call and its list; f.
    let test = [6, 4, 1, 3, 0, 2];
    let order = [&[17, 8][..], &test, &[7], &test, &[16, 14], &[11, 9]].concat();
    assert_eq!(order.len(), 19);
    for (budget, &place) in order.iter().enumerate().skip(1) {
        for [loop_limit, stack_limit] in [[1, 1], [2, 1], [1, 2], [65_535, 10]] {
            let answer = under([loop_limit, stack_limit, budget as u64], loop_and_call).without_file;
            assert_eq!(answer, Answer::Refused(6, place), "{loop_limit} {stack_limit} {budget}");
        }
    }
}

/// Under these limits, under each of them alone raised by one and to the largest, and under the largest.
fn shows_nowhere(least: Limits, build: fn(&mut Program) -> u16) -> Answer {
    let needed = under(least, build);
    assert_eq!(under(LARGEST, build), needed);
    for limit in 0..3 {
        for raised in [least[limit] + 1, (2 * least[limit]).min(LARGEST[limit]), LARGEST[limit]] {
            let mut limits = least;
            limits[limit] = raised;
            assert_eq!(under(limits, build), needed, "{limits:?}");
        }
    }
    needed.without_file
}

#[test]
fn limits_that_are_not_met_show_nowhere() {
    let end = |least: Limits, build: fn(&mut Program) -> u16| Ended::of(shows_nowhere(least, build)).end();
    // For is not for the loop limit: three fields, six steps and the list's end, three bodies.
    let for_three = |program: &mut Program| {
        let (name, body, end) =
            (program.sheet.text(b"y"), program.sheet.put(30, &[0]), program.sheet.put(6, &[]));
        let list = (0..3).fold(end, |rest, _| program.sheet.put(7, &[name, rest]));
        program.sheet.put(26, &[name, list, body])
    };
    assert_eq!(end([0, 0, 11], for_three), (NORMAL, true, 1 + 7 + 3));
    // A body is under no condition.
    let while_false = |program: &mut Program| {
        let (yes, no) = (program.command("true", &[]), program.command("false", &[]));
        program.sheet.put(27, &[yes, no])
    };
    assert_eq!(end([1, 0, 5], while_false), (EXIT, false, 5));
    // Nor is a function.
    let calls_false = |program: &mut Program| {
        let no = program.command("false", &[]);
        program.function("f", no);
        program.call("f")
    };
    assert_eq!(end([0, 1, 4], calls_false), (EXIT, false, 4));
    // f is `echo [$0]`: the call, its list, the echo, its field, the argument and the list's end.
    let own_name = |program: &mut Program| {
        let (zero, end) = (program.sheet.put(3, &[0]), program.sheet.put(6, &[]));
        let list = program.sheet.put(7, &[zero, end]);
        let echo = program.utility("echo", list);
        program.function("f", echo);
        program.call("f")
    };
    let shown = Ended::of(shows_nowhere([0, 1, 6], own_name));
    assert_eq!((shown.end(), &shown.output[..]), ((NORMAL, true, 6), &b"f\n"[..]));
    assert_eq!(shown.functions, [[1, 2, 6], [1, 4, 4]]);
}

#[test]
fn holds_and_streams_have_limits_of_their_own() {
    // Eleven subshells around `true`, record 2: the innermost, record 3, would open the eleventh hold.
    let subshells = |program: &mut Program| {
        let yes = program.command("true", &[]);
        (0..11).fold(yes, |inner, _| program.sheet.put(19, &[inner]))
    };
    assert_eq!(shows_nowhere([0, 0, 11], subshells), Answer::Refused(10, 3));
    // Sixteen lines of 64 bytes by records 0 to 8, and one byte more by the last echo: 9, 10 and 11.
    let lines = |program: &mut Program| {
        let line = program.command("echo", &[&"s".repeat(63)]);
        let all = (0..4).fold(line, |inner, _| program.sheet.put(18, &[inner, inner]));
        let last = program.command("echo", &[]);
        program.sheet.put(18, &[all, last])
    };
    assert_eq!(shows_nowhere([0, 0, 1 + 15 + 16 * 4 + 2], lines), Answer::Refused(9, 11));
}

#[test]
fn refusals_midway_stay_under_higher_limits() {
    // Two texts of 32 bytes joined, after a loop of one turn: 7 at the join.
    let long = |program: &mut Program| {
        let turn = program.while_arguments(1);
        let text = program.sheet.text(&[b'w'; 32]);
        let join = program.sheet.put(5, &[text, text]);
        let assign = program.assign("x", join);
        program.sheet.put(18, &[turn, assign])
    };
    // The sheet of the loop: argument, -n, empty, two fields, test, utility, shift, while; then 9 and 10.
    let needed = 1 + (1 + 6 + 1 + 6) + 4;
    for limits in [[1, 0, needed], [2, 0, needed], [1, 10, needed], [1, 0, needed + 1], LARGEST] {
        assert_eq!(under(limits, long).without_file, Answer::Refused(7, 10), "{limits:?}");
    }
    // One step less, and the second text, record 9, does not begin.
    assert_eq!(under([1, 0, needed - 1], long).without_file, Answer::Refused(6, 9));
    assert_eq!(end_under([0, 0, needed], long), (FAILURE, true, 1 + 1 + 6));
}

/// Limits that are raised by so much.
fn rise(loops: u64, stack: u64, budget: u64) -> Rise {
    Rise { lower: [3, 3, 30], higher: [3 + loops, 3 + stack, 30 + budget] }
}

fn refused(number: u32, place: u32) -> Answer {
    Answer::Refused(number, place)
}

#[test]
fn the_law_on_answers() {
    let every = rise(1, 1, 1);
    for behaviour in [NORMAL, RETURN, EXIT] {
        let end = ended(behaviour, 9, 0);
        assert!(always_stays(&end) && must_stay(&every, &end));
        assert_eq!(broken(&every, &end, &end), None);
        for other in [ended(behaviour, 9, 1), ended(behaviour, 10, 0), ended(FAILURE, 9, 0), refused(6, 1)] {
            assert!(broken(&every, &end, &other).is_some(), "{other:?}");
        }
    }
    for number in 7..=10 {
        assert!(always_stays(&refused(number, 5)));
        for other in [refused(number, 6), refused(number ^ 1, 5), ended(NORMAL, 9, 0), refused(6, 5)] {
            assert!(broken(&every, &refused(number, 5), &other).is_some(), "{other:?}");
        }
    }
    for number in [1, 2, 3, 4, 5, 14] {
        for other in [refused(number, 6), refused(15 - number, 5), ended(NORMAL, 9, 0), refused(6, 5)] {
            assert!(broken(&every, &refused(number, 5), &other).is_some(), "{other:?}");
        }
    }
    let failure = ended(FAILURE, 9, 0);
    assert!(!always_stays(&failure) && !always_stays(&refused(6, 5)));
    for (rise, may_change) in [(rise(1, 0, 0), true), (rise(0, 1, 0), true), (rise(0, 0, 1), false)] {
        assert_eq!(broken(&rise, &failure, &ended(NORMAL, 10, 0)).is_none(), may_change);
        assert_eq!(broken(&rise, &failure, &refused(7, 1)).is_none(), may_change);
        assert_eq!(broken(&rise, &refused(6, 5), &ended(NORMAL, 31, 0)).is_none(), !may_change);
    }
}

#[test]
fn what_changes_has_got_further() {
    let every = rise(1, 1, 1);
    let failure = ended(FAILURE, 9, 0);
    // It has made a step more, and is not refused ahead of its first step.
    for other in
        [ended(NORMAL, 9, 0), ended(FAILURE, 9, 1), ended(NORMAL, 8, 0), refused(2, 0), refused(4, 3)]
    {
        assert!(broken(&every, &failure, &other).is_some(), "{other:?}");
    }
    for other in [ended(NORMAL, 30, 0), ended(FAILURE, 30, 0), refused(5, 0), refused(14, 0)] {
        assert!(broken(&every, &refused(6, 5), &other).is_some(), "{other:?}");
    }
    assert!(broken(&rise(1, 1, 0), &refused(6, 5), &refused(6, 6)).is_some());
    assert_eq!(broken(&rise(0, 0, 1), &refused(6, 5), &refused(6, 6)), None);
}

#[test]
fn pairs_differ_in_accepted_limits_alone() {
    on_large_stack(|| {
        let mut single = [0; 3];
        for index in 0..2_000 {
            let made = pair(7, index);
            let (lower, higher) = (made.rise.lower, made.rise.higher);
            assert_eq!([made.lower.loop_limit, made.lower.stack_limit, made.lower.budget], lower);
            assert_eq!([made.higher.loop_limit, made.higher.stack_limit, made.higher.budget], higher);
            assert!((0..3).all(|limit| lower[limit] <= higher[limit] && higher[limit] <= LARGEST[limit]));
            assert!(lower[2] >= 1);
            let [loop_limit, stack_limit, budget] = lower;
            let lowered = Input { loop_limit, stack_limit, budget, ..made.higher.clone() };
            assert_eq!(lowered, made.lower);
            for limit in (0..3).filter(|&limit| made.rise.raised(limit) && made.rise.count() == 1) {
                single[limit] += 1;
            }
        }
        assert!(single.iter().all(|&count| count > 200), "{single:?}");
    });
}
