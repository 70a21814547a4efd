//! The newlines at the end of an embedded command's stream: what goes, what stays, and what refusals 7
//! and 9 look at. Steps are worked out by hand.

mod common;

use common::*;
use second::answer::Answer;

const WIDE: [u64; 3] = [10, 10, 5_000];

/// So many echoes without fields, out of few records.
fn empty_echoes(program: &mut Program, count: usize) -> u16 {
    let one = program.command("echo", &[]);
    let mut doubled = one;
    let mut parts = Vec::new();
    for bit in 0..10 {
        if count >> bit & 1 == 1 {
            parts.push(doubled);
        }
        doubled = program.sheet.put(18, &[doubled, doubled]);
    }
    program.sequence(&parts)
}

/// x set from `cat` of this input; the embedded record is number 3.
fn x_from(input: &[u8]) -> Answer {
    let mut program = Program::new(WIDE);
    program.input = input.to_vec();
    let cat = program.command("cat", &[]);
    let string = program.sheet.put(4, &[cat]);
    assert_eq!(string, 3);
    let assign = program.assign("x", string);
    program.main(assign)
}

#[test]
fn newlines_at_the_end_go_and_no_others() {
    // Assign and embedded; four for each echo, one for each sequence.
    let cases: [(&[&str], &[u8], u32); 6] = [
        (&["a"], b"a", 2 + 4),
        (&["a", "", ""], b"a", 2 + 3 * 4 + 2),
        (&["", "a", "", "b"], b"\na\n\nb", 2 + 4 * 4 + 3),
        (&["a\n\n\n"], b"a", 2 + 4),
        (&["\n\n", ""], b"", 2 + 2 * 4 + 1),
        (&["a\r"], b"a\r", 2 + 4),
    ];
    for (texts, value, steps) in cases {
        let mut program = Program::new(WIDE);
        let string = program.lines(texts);
        assert_eq!(program.sets_x(string), (value.to_vec(), steps), "{texts:?}");
    }
}

#[test]
fn streams_of_the_input() {
    let cases: [(&[u8], &[u8]); 15] = [
        (b"", b""),
        (b"a", b"a"),
        (b"a\n", b"a"),
        (b"\n", b""),
        (b"\n\n\n", b""),
        (b"\n\na", b"\n\na"),
        (b"a\nb\n", b"a\nb"),
        (b"a\r\n", b"a\r"),
        (b"\r\n\r\n", b"\r\n\r"),
        (b"a\n\r", b"a\n\r"),
        (b"a \n", b"a "),
        (b"a\t\n\n", b"a\t"),
        (b"a\n ", b"a\n "),
        (b"a\n\x00", b"a\n\x00"),
        (b"a\n\x0b\x0c\n", b"a\n\x0b\x0c"),
    ];
    for (input, value) in cases {
        let end = Ended::of(x_from(input));
        assert_eq!((end.x(), end.end()), (value, (NORMAL, true, 4)), "{input:?}");
    }
}

#[test]
fn only_byte_ten_is_a_newline() {
    for byte in 0..=255 {
        let kept = match byte {
            10 => vec![b'a'],
            _ => vec![b'a', byte],
        };
        for input in [vec![b'a', byte], vec![b'a', byte, 10], vec![b'a', byte, 10, 10]] {
            assert_eq!(Ended::of(x_from(&input)).x(), kept, "{input:?}");
        }
    }
}

#[test]
fn only_the_shortened_value_has_to_fit() {
    let stream = |kept: usize, newlines: usize| [vec![b'w'; kept], vec![10; newlines]].concat();
    for (kept, newlines) in [(63, 0), (63, 1), (62, 2), (63, 961), (24, 1_000), (1, 1_023), (0, 1_024)] {
        let end = Ended::of(x_from(&stream(kept, newlines)));
        assert_eq!(end.x(), vec![b'w'; kept], "{kept} {newlines}");
    }
    for (kept, newlines) in [(64, 0), (64, 1), (64, 960), (65, 0), (1_023, 1), (1_024, 0)] {
        assert_eq!(x_from(&stream(kept, newlines)), Answer::Refused(7, 3), "{kept} {newlines}");
    }
    // Newlines that are not at the end count like other bytes.
    let inside = |newlines: usize| [vec![10; newlines], vec![b'w', 10]].concat();
    assert_eq!(Ended::of(x_from(&inside(62))).x().len(), 63);
    assert_eq!(x_from(&inside(63)), Answer::Refused(7, 3));
}

#[test]
fn a_thousand_echoes_are_held_and_then_cut() {
    let mut program = Program::new(WIDE);
    let text = program.command("echo", &[&"w".repeat(24)]);
    let echoes = empty_echoes(&mut program, 999);
    let both = program.sheet.put(18, &[text, echoes]);
    let string = program.sheet.put(4, &[both]);
    // Assign, embedded, a sequence, four for the text; two for each further echo, sequences between.
    assert_eq!(program.sets_x(string), (vec![b'w'; 24], 7 + 999 * 2 + 998));
}

/// x set from 1,024 newlines and then an echo, if one more is asked for.
fn full_of_newlines(one_more: bool) -> (Answer, u16) {
    let mut program = Program::new(WIDE);
    let line = program.command("echo", &[&"\n".repeat(63)]);
    let all = (0..4).fold(line, |inner, _| program.sheet.put(18, &[inner, inner]));
    let last = program.command(if one_more { "echo" } else { "true" }, &[]);
    let both = program.sheet.put(18, &[all, last]);
    let string = program.sheet.put(4, &[both]);
    let assign = program.assign("x", string);
    (program.main(assign), last)
}

#[test]
fn the_stream_is_measured_with_its_newlines() {
    let end = Ended::of(full_of_newlines(false).0);
    assert_eq!((end.x(), end.end()), (&b""[..], (NORMAL, true, 2 + 1 + 15 + 16 * 4 + 2)));
    let (answer, last) = full_of_newlines(true);
    assert_eq!(answer, Answer::Refused(9, last.into()));
}

#[test]
fn so_is_a_stream_that_the_input_begins() {
    for (length, refused) in [(1_023, false), (1_024, true)] {
        let mut program = Program::new(WIDE);
        program.input = vec![10; length];
        let (cat, echo) = (program.command("cat", &[]), program.command("echo", &[]));
        let both = program.sheet.put(18, &[cat, echo]);
        let string = program.sheet.put(4, &[both]);
        let assign = program.assign("x", string);
        match program.main(assign) {
            answer if refused => assert_eq!(answer, Answer::Refused(9, echo.into())),
            answer => assert_eq!(Ended::of(answer).x(), b""),
        }
    }
}

#[test]
fn failure_goes_ahead_of_every_value() {
    for (kept, newlines) in [(0, 3), (5, 0), (5, 2), (64, 0), (64, 960)] {
        let mut program = Program::new([0, 0, 1_000]);
        program.input = [vec![b'w'; kept], vec![10; newlines]].concat();
        let cat = program.command("cat", &[]);
        let yes = program.command("true", &[]);
        let failing = program.sheet.put(27, &[yes, yes]);
        let both = program.sheet.put(18, &[cat, failing]);
        let string = program.sheet.put(4, &[both]);
        let assign = program.assign("x", string);
        let end = program.ends(assign);
        // Assign, embedded, sequence, two for cat, three for the while and its test.
        assert_eq!(end.end(), (FAILURE, true, 8));
        assert!(end.variables.is_empty());
    }
}

/// x set from an embedded echo of this text and another instruction after it.
fn x_with_end(text: &str, end: impl Fn(&mut Program) -> u16) -> Ended {
    let mut program = Program::new(WIDE);
    let echo = program.command("echo", &[text]);
    let end = end(&mut program);
    let both = program.sheet.put(18, &[echo, end]);
    let string = program.sheet.put(4, &[both]);
    let assign = program.assign("x", string);
    program.ends(assign)
}

#[test]
fn the_flag_is_the_commands_result() {
    for text in ["a", ""] {
        // Assign, embedded, sequence, four for echo; then exit or return with a code.
        for (kind, code) in [(28, 0), (28, 1), (28, 2), (29, 0), (29, 1), (29, 2)] {
            let end = x_with_end(text, |program| program.sheet.put(kind, &[code]));
            let expected = if code == 1 { (EXIT, false, 8) } else { (NORMAL, true, 8) };
            assert_eq!((end.x(), end.end()), (text.as_bytes(), expected));
        }
        let end = x_with_end(text, |program| program.command("false", &[]));
        assert_eq!((end.x(), end.end()), (text.as_bytes(), (EXIT, false, 9)));
    }
}

#[test]
fn the_context_goes_and_the_input_stays_consumed() {
    let mut program = Program::new(WIDE);
    program.input = b"in\n\n".to_vec();
    let one = program.sheet.text(b"1");
    let (lost, cat) = (program.assign("y", one), program.command("cat", &[]));
    let both = program.sheet.put(18, &[lost, cat]);
    let string = program.sheet.put(4, &[both]);
    let assign = program.assign("x", string);
    let all = program.sheet.put(18, &[assign, cat]);
    let end = program.ends(all);
    assert_eq!((end.x(), &end.output[..]), (&b"in"[..], &b""[..]));
}

#[test]
fn dropped_bytes_are_no_part_of_the_value() {
    let mut program = Program::new(WIDE);
    let (a, end) = (program.command("echo", &["a"]), program.command("echo", &["b"]));
    let dropped = program.sheet.put(22, &[end]);
    let both = program.sheet.put(18, &[a, dropped]);
    let string = program.sheet.put(4, &[both]);
    assert_eq!(program.sets_x(string).0, b"a");
}
