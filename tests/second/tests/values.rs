//! Values of embedded commands in every place: joins, lists, splits, inside one another, beside pipes;
//! and the newlines that stay, as no embedded command ends in them. Steps are worked out by hand.

mod common;

use common::*;
use second::answer::Answer;

const WIDE: [u64; 3] = [10, 10, 1_000];

#[test]
fn each_side_of_a_join_is_cut_by_itself() {
    let cases: [(&[&str], &[&str], &[u8]); 4] = [
        (&["a"], &["b", ""], b"ab"),
        (&["a", "", ""], &[""], b"a"),
        (&["", ""], &["", "b"], b"\nb"),
        (&["\n"], &["\n\n"], b""),
    ];
    for (left, right, value) in cases {
        let mut program = Program::new(WIDE);
        let (left, right) = (program.lines(left), program.lines(right));
        let join = program.sheet.put(5, &[left, right]);
        assert_eq!(program.sets_x(join).0, value);
    }
}

#[test]
fn a_text_beside_an_embedded_command_keeps_its_newlines() {
    for text in [&b"t\n"[..], b"\n\n", b"\r\n"] {
        for embedded_first in [true, false] {
            let mut program = Program::new(WIDE);
            let only_newlines = program.lines(&["", "\n"]);
            let text_record = program.sheet.text(text);
            let sides =
                if embedded_first { [only_newlines, text_record] } else { [text_record, only_newlines] };
            let join = program.sheet.put(5, &sides);
            assert_eq!(program.sets_x(join).0, text);
        }
    }
}

#[test]
fn a_join_measures_what_is_left_of_its_sides() {
    let join_of = |right: usize| {
        let mut program = Program::new(WIDE);
        let left = program.lines(&[&"l".repeat(32), "", ""]);
        let right = program.lines(&[&"r".repeat(right), ""]);
        let join = program.sheet.put(5, &[left, right]);
        let assign = program.assign("x", join);
        (program.main(assign), join)
    };
    assert_eq!(Ended::of(join_of(31).0).x().len(), 63);
    let (answer, join) = join_of(32);
    assert_eq!(answer, Answer::Refused(7, join.into()));
}

#[test]
fn in_the_lists_of_utility_for_and_call() {
    let mut program = Program::new(WIDE);
    let value = program.lines(&["a", ""]);
    let echo = program.echo_string(value, ">");
    let list = program.sheet.put(6, &[]);
    let list = program.sheet.put(7, &[value, list]);
    let (x, f) = (program.sheet.text(b"x"), program.sheet.text(b"f"));
    let yes = program.command("true", &[]);
    let loops = program.sheet.put(26, &[x, list, yes]);
    let first = program.sheet.put(3, &[1]);
    let body = program.echo_string(first, "<");
    program.function("f", body);
    let call = program.sheet.put(25, &[f, list]);
    let all = program.sequence(&[echo, loops, call]);
    let end = program.ends(all);
    assert_eq!(end.output, b"a >\na <\n");
    assert_eq!(end.x(), b"a");
    // The value takes ten steps. Echo and its two fields: 5. For, its list and `true`: 5. Call and its
    // list: 3; the body: 6. Two sequences.
    assert_eq!(end.end(), (NORMAL, true, 3 * 10 + 5 + 5 + 3 + 6 + 2));
    assert_eq!(end.functions[1], [1, 6, 6]);
}

#[test]
fn a_split_measures_the_shortened_value() {
    let split_of = |kept: usize| {
        let mut program = Program::new(WIDE);
        program.input = [b"ab ".to_vec(), vec![b'w'; kept - 3], vec![10; 70]].concat();
        let cat = program.command("cat", &[]);
        let string = program.sheet.put(4, &[cat]);
        let list = program.sheet.put(6, &[]);
        let list = program.sheet.put(8, &[string, list]);
        let echo = program.utility("echo", list);
        (program.main(echo), string)
    };
    let end = Ended::of(split_of(63).0);
    assert_eq!(end.output, [b"ab ".to_vec(), vec![b'w'; 60], vec![10]].concat());
    let (answer, string) = split_of(64);
    assert_eq!(answer, Answer::Refused(7, string.into()));
}

#[test]
fn inside_one_another() {
    let mut program = Program::new(WIDE);
    let inner = program.lines(&["a", "", ""]);
    let echo = program.echo_string(inner, "b");
    let more = program.command("echo", &[]);
    let both = program.sheet.put(18, &[echo, more]);
    let outer = program.sheet.put(4, &[both]);
    // Assign, embedded, sequence; echo, its two fields, their end and a text; the inner one, which is an
    // embedded record, three echoes and two sequences; the last echo.
    assert_eq!(program.sets_x(outer), (b"a b".to_vec(), 3 + 5 + 15 + 2));
}

#[test]
fn the_stream_outside_keeps_its_newlines() {
    let mut program = Program::new(WIDE);
    let before = program.command("echo", &["o\n"]);
    let only_newlines = program.lines(&["", ""]);
    let assign = program.assign("x", only_newlines);
    let both = program.sheet.put(18, &[before, assign]);
    let end = program.ends(both);
    assert_eq!((&end.output[..], end.x()), (&b"o\n\n"[..], &b""[..]));
}

#[test]
fn pipes_keep_their_newlines() {
    // { echo a; echo } | cat, alone and inside an embedded command, where something may follow.
    let with_pipe = || {
        let mut program = Program::new(WIDE);
        let (a, cat) = (program.command("echo", &["a"]), program.command("cat", &[]));
        let end = program.command("echo", &[]);
        let first = program.sheet.put(18, &[a, end]);
        let pipe = program.sheet.put(23, &[first, cat]);
        (program, pipe)
    };
    let (program, pipe) = with_pipe();
    assert_eq!(program.ends(pipe).output, b"a\n\n");
    let (mut program, pipe) = with_pipe();
    let string = program.sheet.put(4, &[pipe]);
    assert_eq!(program.sets_x(string), (b"a".to_vec(), 2 + 1 + 7 + 2));
    let (mut program, pipe) = with_pipe();
    let after = program.command("echo", &["b"]);
    let both = program.sheet.put(18, &[pipe, after]);
    let string = program.sheet.put(4, &[both]);
    assert_eq!(program.sets_x(string).0, b"a\n\nb");
}

#[test]
fn a_pipe_into_an_embedded_command() {
    let mut program = Program::new(WIDE);
    let (first, cat) = (program.command("echo", &["a\n\n"]), program.command("cat", &[]));
    let value = program.sheet.put(4, &[cat]);
    let second = program.echo_string(value, ".");
    let pipe = program.sheet.put(23, &[first, second]);
    assert_eq!(program.ends(pipe).output, b"a .\n");
}

#[test]
fn texts_variables_and_arguments_keep_their_newlines() {
    let mut program = Program::new(WIDE);
    program.arguments.push(b"g\n\n".to_vec());
    let (text, argument) = (program.sheet.text(b"t\n"), program.sheet.put(3, &[1]));
    let y = program.sheet.text(b"y");
    let variable = program.sheet.put(2, &[y]);
    let parts = [program.assign("y", text), program.assign("x", variable), program.assign("z", argument)];
    let all = program.sequence(&parts);
    let end = program.ends(all);
    let values: Vec<&[u8]> = end.variables.iter().map(|variable| &variable.value[..]).collect();
    assert_eq!(values, [&b"t\n"[..], b"t\n", b"g\n\n"]);
}

#[test]
fn a_branch_by_a_code() {
    for (code, output) in [("ok", &b"yes\n"[..]), ("ok\n", b"yes\n"), ("ok\r", b"no\n"), ("\nok", b"no\n")] {
        let mut program = Program::new(WIDE);
        let value = program.lines(&[code]);
        let (sign, bare) = (program.sheet.text(b"="), program.sheet.text(b"ok"));
        let list = program.sheet.put(6, &[]);
        let list =
            [bare, sign, value].iter().fold(list, |rest, string| program.sheet.put(7, &[*string, rest]));
        let test = program.utility("test", list);
        let (yes, no) = (program.command("echo", &["yes"]), program.command("echo", &["no"]));
        let whole = program.sheet.put(21, &[test, yes, no]);
        let end = program.ends(whole);
        // If, test, three fields and their end, two texts, five for the value, four for the branch.
        assert_eq!((&end.output[..], end.end()), (output, (NORMAL, true, 17)), "{code:?}");
    }
}
