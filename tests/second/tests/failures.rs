//! Failure is never lost: wherever it comes up, the run makes no step more and ends in it. Each place is
//! tried with a loop and with a call that meet their limit, and again under a higher one. Steps are worked
//! out by hand.

mod common;

use common::*;
use second::answer::{Answer, Answers};
use second::run::on_large_stack;
use second::watch::Watch;

/// What meets a limit: it fails after so many steps, and under the next higher limit goes well after so
/// many. It writes nothing, and then its result is true.
struct Core {
    make: fn(&mut Program) -> u16,
    fails: u32,
    goes_well: u32,
    low: [u64; 3],
    high: [u64; 3],
}

/// A call of f, which is `true`: the call and its list, then two steps of f. Of the stack limit one is
/// left for places that call a function themselves, so f first calls on to e.
const CALL: Core = Core {
    make: |program| {
        let yes = program.command("true", &[]);
        program.function("e", yes);
        let to_e = program.call("e");
        program.function("f", to_e);
        program.call("f")
    },
    fails: 2 + 2,
    goes_well: 2 + 2 + 2,
    low: [1, 1, 1_000],
    high: [1, 2, 1_000],
};

/// Two turns while there are arguments: six steps a test, one a body.
const LOOP: Core = Core {
    make: |program| program.while_arguments(2),
    fails: 1 + 6 + 1 + 6,
    goes_well: 1 + 3 * 6 + 2,
    low: [1, 2, 1_000],
    high: [2, 2, 1_000],
};

/// A place for an instruction: the steps ahead of it and those after it.
struct Place {
    name: &'static str,
    put: fn(&mut Program, u16) -> u16,
    ahead: u32,
    after: u32,
    /// How the whole ends there if the instruction goes well and nothing more is to follow.
    stops: Option<(u8, bool)>,
    /// Calls that are open around the instruction.
    calls: u64,
}

const fn place(name: &'static str, put: fn(&mut Program, u16) -> u16, ahead: u32, after: u32) -> Place {
    Place { name, put, ahead, after, stops: None, calls: 0 }
}

/// `true` and `false` are two steps each.
const IN_INSTRUCTIONS: [Place; 15] = [
    place("not", |p, core| p.sheet.put(20, &[core]), 1, 0),
    place("not not", not_not, 2, 0),
    place("if, test", |p, core| with_true(p, 21, |yes| [core, yes, yes]), 1, 2),
    place("if, then", |p, core| with_true(p, 21, |yes| [yes, core, yes]), 1 + 2, 0),
    place("if, else", if_not_true, 1 + 3, 0),
    place("while, test", until_false, 2, 2),
    place("while, body", once, 2 + 2 + 1, 1),
    place("for, body", |p, core| for_field(p, None, core), 1 + 3, 0),
    place("subshell", |p, core| p.sheet.put(19, &[core]), 1, 0),
    place("nooutput", |p, core| p.sheet.put(22, &[core]), 1, 0),
    place("pipe, first", |p, core| with_true(p, 23, |yes| [core, yes]), 1, 2),
    place("pipe, second", |p, core| with_true(p, 23, |yes| [yes, core]), 1 + 2, 0),
    place("sequence, first", |p, core| with_true(p, 18, |yes| [core, yes]), 1, 2),
    place("sequence, second", |p, core| with_true(p, 18, |yes| [yes, core]), 1 + 2, 0),
    Place { calls: 1, ..place("function", in_function, 6, 0) },
];

/// Places of an embedded command.
const IN_STRINGS: [Place; 11] = [
    place("assign", assigned, 2, 0),
    place("join, left", |p, core| joined(p, core, true), 3, 1),
    place("join, right", |p, core| joined(p, core, false), 4, 0),
    place("utility, field", |p, core| listed(p, 7, core), 3, 1),
    place("utility, split", |p, core| listed(p, 8, core), 3, 1),
    // The utility, the field or split and its text, then the field around the core; the list's end.
    place("utility, second field", |p, core| behind_text(p, 7, core), 1 + 2 + 2, 1),
    place("utility, behind a split", |p, core| behind_text(p, 8, core), 1 + 2 + 2, 1),
    // A field without bytes is one, and the body of one step is run; a split of it has none.
    place("for, field", |p, core| for_field(p, Some(7), core), 3, 1 + 1),
    place("for, split", |p, core| for_field(p, Some(8), core), 3, 1),
    place("call", |p, core| called(p, "g", core), 3, 1 + 2),
    Place { stops: Some((EXIT, false)), ..place("call, unknown", |p, core| called(p, "nobody", core), 3, 1) },
];

/// A record of this kind whose parts are the core and `true`.
fn with_true<const PARTS: usize>(
    program: &mut Program,
    kind: u16,
    parts: impl Fn(u16) -> [u16; PARTS],
) -> u16 {
    let yes = program.command("true", &[]);
    program.sheet.put(kind, &parts(yes))
}

fn not_not(program: &mut Program, core: u16) -> u16 {
    let not = program.sheet.put(20, &[core]);
    program.sheet.put(20, &[not])
}

/// `if (not true) then true else core`.
fn if_not_true(program: &mut Program, core: u16) -> u16 {
    let yes = program.command("true", &[]);
    let not = program.sheet.put(20, &[yes]);
    program.sheet.put(21, &[not, yes, core])
}

/// The core is the body of a function that is called with two arguments.
fn in_function(program: &mut Program, core: u16) -> u16 {
    program.function("outer", core);
    let (name, word) = (program.sheet.text(b"outer"), program.sheet.text(b"w"));
    let end = program.sheet.put(6, &[]);
    let list = (0..2).fold(end, |rest, _| program.sheet.put(7, &[word, rest]));
    program.sheet.put(25, &[name, list])
}

/// `while (core; false) do true`: no body is run.
fn until_false(program: &mut Program, core: u16) -> u16 {
    let (no, yes) = (program.command("false", &[]), program.command("true", &[]));
    let test = program.sheet.put(18, &[core, no]);
    program.sheet.put(27, &[test, yes])
}

/// `while true do (core; exit success)`, in a subshell that ends the exit: one body, which no limit stops.
fn once(program: &mut Program, core: u16) -> u16 {
    let (yes, exit) = (program.command("true", &[]), program.sheet.put(28, &[0]));
    let body = program.sheet.put(18, &[core, exit]);
    let whole = program.sheet.put(27, &[yes, body]);
    program.sheet.put(19, &[whole])
}

/// A list of the embedded core alone.
fn list_of(program: &mut Program, kind: u16, core: u16) -> u16 {
    let (string, end) = (program.sheet.put(4, &[core]), program.sheet.put(6, &[]));
    program.sheet.put(kind, &[string, end])
}

/// `true` with that list.
fn listed(program: &mut Program, kind: u16, core: u16) -> u16 {
    let list = list_of(program, kind, core);
    program.utility("true", list)
}

fn assigned(program: &mut Program, core: u16) -> u16 {
    let string = program.sheet.put(4, &[core]);
    program.assign("x", string)
}

/// A for over a text with the core as its body; or over the embedded core, with `shift 0` as its body.
fn for_field(program: &mut Program, embedded: Option<u16>, core: u16) -> u16 {
    let name = program.sheet.text(b"y");
    let (list, body) = match embedded {
        Some(kind) => (list_of(program, kind, core), program.sheet.put(30, &[0])),
        None => {
            let end = program.sheet.put(6, &[]);
            (program.sheet.put(7, &[name, end]), core)
        }
    };
    program.sheet.put(26, &[name, list, body])
}

/// x set from the embedded core and a text.
fn joined(program: &mut Program, core: u16, left: bool) -> u16 {
    let (string, text) = (program.sheet.put(4, &[core]), program.sheet.text(b"w"));
    let join = program.sheet.put(5, &if left { [string, text] } else { [text, string] });
    program.assign("x", join)
}

/// `true [w, {core}]`, where the w is a field or a split.
fn behind_text(program: &mut Program, kind: u16, core: u16) -> u16 {
    let (text, list) = (program.sheet.text(b"w"), list_of(program, 7, core));
    let list = program.sheet.put(kind, &[text, list]);
    program.utility("true", list)
}

/// A call with the embedded core as its argument. There is a g, which is `true`.
fn called(program: &mut Program, name: &str, core: u16) -> u16 {
    let yes = program.command("true", &[]);
    program.function("g", yes);
    let list = list_of(program, 7, core);
    let name = program.sheet.text(name.as_bytes());
    program.sheet.put(25, &[name, list])
}

/// The core in its place, and `echo seen` after it.
fn watched(core: &Core, place: &Place, [loop_limit, stack_limit, budget]: [u64; 3]) -> (Answers, Watch) {
    let mut program = Program::new([loop_limit, (stack_limit + place.calls).min(10), budget]);
    let inner = (core.make)(&mut program);
    let placed = (place.put)(&mut program, inner);
    let echo = program.command("echo", &["seen"]);
    let whole = program.sheet.put(18, &[placed, echo]);
    program.sheet.put(33, &[whole]);
    let input = program.input();
    on_large_stack(move || input.watched())
}

fn fails_and_then_goes_well(core: &Core, place: &Place) {
    let name = place.name;
    let (answers, watch) = watched(core, place, core.low);
    assert_eq!(watch.lost_failure(&answers.without_file), None, "{name}");
    let end = Ended::of(answers.without_file);
    assert_eq!((end.behaviour, end.steps), (FAILURE, 1 + place.ahead + core.fails), "{name}");
    assert!(end.output.is_empty(), "{name}");
    // Only a for whose body fails has set its variable.
    assert!(end.variables.iter().all(|variable| variable.name == b"y"), "{name}");
    let (raised, watch) = watched(core, place, core.high);
    assert_eq!(watch.lost_failure(&raised.without_file), None, "{name}");
    let end = Ended::of(raised.without_file.clone());
    let steps = 1 + place.ahead + core.goes_well + place.after;
    // Four steps for the echo, which leaves true.
    let (judged, output) = match place.stops {
        None => ((NORMAL, true, steps + 4), &b"seen\n"[..]),
        Some((behaviour, result)) => ((behaviour, result, steps), &b""[..]),
    };
    assert_eq!((end.end(), &end.output[..]), (judged, output), "{name}");
    assert_eq!(watched(core, place, [65_535, 10, 1_000_000]).0, raised, "{name}");
}

#[test]
fn a_loop_at_its_limit_in_every_place() {
    IN_INSTRUCTIONS.iter().chain(&IN_STRINGS).for_each(|place| fails_and_then_goes_well(&LOOP, place));
}

#[test]
fn a_call_at_the_stack_limit_in_every_place() {
    IN_INSTRUCTIONS.iter().chain(&IN_STRINGS).for_each(|place| fails_and_then_goes_well(&CALL, place));
}

#[test]
fn a_place_within_a_place() {
    for outer in IN_INSTRUCTIONS.iter().chain(&IN_STRINGS) {
        for inner in IN_INSTRUCTIONS.iter().chain(&IN_STRINGS) {
            // No two functions share a name, so a place that makes one does not stand in a place that makes
            // the same: the calls make g, the other one `outer`.
            let made =
                |place: &Place| ["call", "function"].iter().position(|start| place.name.starts_with(start));
            if made(outer).is_some() && made(outer) == made(inner) {
                continue;
            }
            let [loop_limit, stack_limit, budget] = CALL.low;
            let mut program = Program::new([loop_limit, stack_limit + outer.calls + inner.calls, budget]);
            let core = (CALL.make)(&mut program);
            let placed = (inner.put)(&mut program, core);
            let whole = (outer.put)(&mut program, placed);
            let end = program.ends(whole);
            let steps = outer.ahead + inner.ahead + CALL.fails;
            assert_eq!((end.behaviour, end.steps), (FAILURE, steps), "{} in {}", inner.name, outer.name);
        }
    }
}

#[test]
fn a_call_at_the_stack_limit_opens_no_hold() {
    for (stack_limit, refused) in [(0, false), (1, true)] {
        let mut program = Program::new([0, stack_limit, 1_000]);
        let yes = program.command("true", &[]);
        program.function("f", yes);
        let call = program.call("f");
        let whole = (0..10).fold(call, |inner, _| program.sheet.put(19, &[inner]));
        let answer = program.main(whole);
        if refused {
            assert_eq!(answer, Answer::Refused(10, call.into()));
        } else {
            assert_eq!(Ended::of(answer).end(), (FAILURE, true, 10 + 2));
        }
    }
}

#[test]
fn the_result_after_a_failure() {
    // `not true` leaves false; a subshell keeps that, a pipe has the result from before its first side.
    for (kind, result) in [(19, false), (23, true)] {
        let mut program = Program::new(CALL.low);
        let core = (CALL.make)(&mut program);
        let yes = program.command("true", &[]);
        let not = program.sheet.put(20, &[yes]);
        let both = program.sheet.put(18, &[not, core]);
        let parts = if kind == 23 { vec![both, yes] } else { vec![both] };
        let whole = program.sheet.put(kind, &parts);
        assert_eq!(program.ends(whole).end(), (FAILURE, result, 1 + 1 + 3 + CALL.fails), "{kind}");
    }
}

#[test]
fn the_watch_tells_a_lost_failure() {
    let mut failed = Watch::default();
    failed.failed(5);
    // Only the first counts: the others are the same one on its way up.
    failed.failed(6);
    assert_eq!(failed.lost_failure(&ended(FAILURE, 5, 0)), None);
    for lost in [
        ended(FAILURE, 4, 0),
        ended(FAILURE, 6, 0),
        ended(NORMAL, 5, 0),
        ended(RETURN, 5, 0),
        ended(EXIT, 5, 0),
    ] {
        assert!(failed.lost_failure(&lost).is_some(), "{lost:?}");
    }
    for number in 6..=10 {
        assert!(failed.lost_failure(&Answer::Refused(number, 0)).is_some(), "{number}");
    }
    let never = Watch::default();
    for kept in [ended(NORMAL, 5, 0), ended(EXIT, 0, 0), Answer::Refused(6, 1), Answer::Refused(4, 0)] {
        assert_eq!(never.lost_failure(&kept), None, "{kept:?}");
    }
    assert!(never.lost_failure(&ended(FAILURE, 5, 0)).is_some());
}
