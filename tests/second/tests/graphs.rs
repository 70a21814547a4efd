//! Call graphs judged by hand, the order of the refusals about memories, and what holds for every graph.

mod common;

use common::*;
use second::answer::{Answer, Answers};
use second::generate::generate;
use second::profile::Edge;
use second::run::{on_large_stack, Input, FILE_SIZE, RESULT_SIZE, WORK_SIZE};

const WIDE: [u64; 3] = [10, 10, 1_000];

fn edge(caller: usize, callee: usize, calls: u32, inclusive: u32) -> Edge {
    Edge { caller, callee, calls, inclusive }
}

/// Exercise A's file; only the steps differ with the stack limit.
fn file_of_a([total, f, calls, inner]: [u32; 4]) -> String {
    format!(
        "# callgrind format\nversion: 1\ncreator: colis-runner\npositions: line\nevents: Steps\n\
         summary: {total}\n\nfl=(1) ???\nfn=(1) (main)\nfn=(2) f\n\n\
         fn=(1)\n0 6\ncfn=(2)\ncalls=1 0\n0 {f}\n\n\
         fn=(2)\n0 {f}\ncfn=(2)\ncalls={calls} 0\n0 {inner}\n\ntotals: {total}\n"
    )
}

#[test]
fn exercise_a_whole() {
    let (program, call) = exercise_a(3, 37);
    let graph = program.draws(call);
    // The third level, of nine steps, lies inside the second, of eleven.
    assert_eq!(graph.edges, [edge(0, 1, 1, 31), edge(1, 1, 2, 20)]);
    assert_eq!(String::from_utf8_lossy(&graph.file), file_of_a([37, 31, 2, 20]));
    assert_eq!(graph.file.len(), 212);
}

#[test]
fn exercise_a_at_the_stack_limit_has_one_call_less() {
    let (program, call) = exercise_a(2, 37);
    let graph = program.draws(call);
    assert_eq!(graph.edges, [edge(0, 1, 1, 22), edge(1, 1, 1, 11)]);
    assert_eq!(String::from_utf8_lossy(&graph.file), file_of_a([28, 22, 1, 11]));
}

#[test]
fn exercise_a_refused_has_no_graph() {
    let (mut program, call) = exercise_a(3, 36);
    program.sheet.put(33, &[call]);
    let answers = program.answers();
    assert_eq!(answers.with_file, Answer::Refused(6, 8));
    assert!(answers.graph.edges.is_empty() && answers.graph.file.is_empty());
}

#[test]
fn mutual_recursion() {
    let mut program = Program::new([0, 4, 1_000]);
    let to_g = program.call("g");
    let to_f = program.call("f");
    program.function("f", to_g);
    program.function("g", to_f);
    // f, g, f, g with two steps each; the call after them is turned away.
    let graph = program.draws(to_f);
    assert_eq!(graph.edges, [edge(0, 1, 1, 8), edge(1, 2, 2, 6), edge(2, 1, 1, 4)]);
}

#[test]
fn a_call_in_the_list_of_a_call_is_the_callers() {
    let mut program = Program::new(WIDE);
    let yes = program.command("true", &[]);
    program.function("f", yes);
    program.function("g", yes);
    let to_g = program.call("g");
    let string = program.sheet.put(4, &[to_g]);
    let list = program.sheet.put(6, &[]);
    let list = program.sheet.put(7, &[string, list]);
    let name = program.sheet.text(b"f");
    let to_f = program.sheet.put(25, &[name, list]);
    assert_eq!(program.draws(to_f).edges, [edge(0, 1, 1, 2), edge(0, 2, 1, 2)]);
}

#[test]
fn calls_that_never_open_are_none() {
    let mut program = Program::new([0, 1, 1_000]);
    let yes = program.command("true", &[]);
    program.function("f", yes);
    let unknown = program.call("unknown");
    let unknown = program.sheet.put(20, &[unknown]);
    // An error in the list: Failure inside the embedded command.
    let fails = program.sheet.put(27, &[yes, yes]);
    let string = program.sheet.put(4, &[fails]);
    let list = program.sheet.put(6, &[]);
    let list = program.sheet.put(7, &[string, list]);
    let name = program.sheet.text(b"f");
    let with_error = program.sheet.put(25, &[name, list]);
    let all = program.sheet.put(18, &[unknown, with_error]);
    let graph = program.draws(all);
    assert!(graph.edges.is_empty());
    let file = String::from_utf8_lossy(&graph.file);
    assert!(file.contains("\n\nfn=(2)\n0 0\n\ntotals: "), "{file}");
}

#[test]
fn a_function_called_main_is_not_main() {
    let mut program = Program::new(WIDE);
    let yes = program.command("true", &[]);
    program.function("main", yes);
    let call = program.call("main");
    let graph = program.draws(call);
    assert_eq!(graph.edges, [edge(0, 1, 1, 2)]);
    assert!(String::from_utf8_lossy(&graph.file).contains("\nfn=(1) (main)\nfn=(2) main\n"));
}

#[test]
fn the_memories_are_refused_in_their_order() {
    let (mut program, call) = exercise_a(3, 37);
    program.sheet.put(33, &[call]);
    let answer = |sizes: [usize; 3], budget: u64| {
        let input = Input {
            sheet: program.sheet.bytes(),
            arguments: second::writer::argument_sheet(&program.arguments),
            input: Vec::new(),
            loop_limit: 0,
            stack_limit: 3,
            budget,
            result_size: sizes[0],
            work_size: sizes[1],
            file_size: sizes[2],
        };
        on_large_stack(move || input.answers())
    };
    let refused = |sizes, budget| answer(sizes, budget).with_file;
    assert_eq!(refused([RESULT_SIZE - 1, WORK_SIZE, 0], 0), Answer::Refused(1, 0));
    assert_eq!(refused([RESULT_SIZE, WORK_SIZE + 1, 0], 0), Answer::Refused(1, 0));
    assert_eq!(refused([RESULT_SIZE, WORK_SIZE, FILE_SIZE - 1], 0), Answer::Refused(14, 0));
    assert_eq!(refused([RESULT_SIZE, WORK_SIZE, FILE_SIZE - 1], 37), Answer::Refused(14, 0));
    assert_eq!(refused([RESULT_SIZE, WORK_SIZE, FILE_SIZE], 0), Answer::Refused(2, 0));
    assert!(matches!(refused([RESULT_SIZE, WORK_SIZE, FILE_SIZE + 1], 37), Answer::Ended(_)));
    // Without a file its memory does not matter.
    let without = answer([RESULT_SIZE, WORK_SIZE, 0], 37).without_file;
    assert!(matches!(without, Answer::Ended(_)));
}

/// The functions that this one reaches over edges.
fn reached(edges: &[Edge], from: usize) -> Vec<usize> {
    let mut reached = Vec::new();
    let mut open = vec![from];
    while let Some(function) = open.pop() {
        for edge in edges.iter().filter(|edge| edge.caller == function) {
            if !reached.contains(&edge.callee) {
                reached.push(edge.callee);
                open.push(edge.callee);
            }
        }
    }
    reached
}

/// Calls add up to entries, no edge passes a function it joins, and where no two functions call each
/// other round about, the edges into a function add up to its inclusive count.
fn holds_together(answers: Answers) {
    let edges = answers.graph.edges;
    let functions = Ended::of(answers.with_file).functions;
    for (number, [entered, _, inclusive]) in functions.iter().enumerate().skip(1) {
        let into: Vec<&Edge> = edges.iter().filter(|edge| edge.callee == number).collect();
        assert_eq!(into.iter().map(|edge| edge.calls).sum::<u32>(), *entered);
        for edge in &into {
            assert!(edge.calls > 0 && edge.inclusive <= (*inclusive).min(functions[edge.caller][2]));
        }
        let others = reached(&edges, number).into_iter().filter(|&other| other != number);
        let round_about = others.into_iter().any(|other| reached(&edges, other).contains(&number));
        if !round_about {
            let from_others = into.iter().filter(|edge| edge.caller != number);
            assert_eq!(from_others.map(|edge| edge.inclusive).sum::<u32>(), *inclusive);
        }
    }
    assert!(answers.graph.file.len() <= 40_033);
}

#[test]
fn every_graph_holds_together() {
    on_large_stack(|| {
        for index in 0..4_000 {
            let answers = generate(3, index).answers();
            if let Answer::Ended(_) = answers.with_file {
                holds_together(answers);
            }
        }
    });
}
