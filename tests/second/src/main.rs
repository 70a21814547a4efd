//! Commands of the second program.

use second::answer::Answer;
use second::compare::{compare, tally};
use second::generate::generate;
use second::raising::raising;
use second::run::on_large_stack;
use second::vectors;
use second::workers::Inputs;
use std::env;
use std::fs;
use std::process::ExitCode;

const USAGE: &str = "usage: second vectors FILE...
       second run SHEETHEX ARGSHEX INPUTHEX LOOP STACK BUDGET
       second graph SHEETHEX ARGSHEX INPUTHEX LOOP STACK BUDGET
       second compare COUNT [SEED [FIRST]]   against the library
       second raising COUNT [SEED [FIRST]]   pairs of limits, by this program and by the library
       second tally COUNT [SEED [FIRST]]     outcomes by this program alone
       second show INDEX [SEED]              one generated input as a vector line";

fn main() -> ExitCode {
    let words: Vec<String> = env::args().skip(1).collect();
    let words: Vec<&str> = words.iter().map(String::as_str).collect();
    let done = match words.as_slice() {
        ["vectors", files @ ..] if !files.is_empty() => run_vectors(files),
        ["run", input @ ..] => run_one(input),
        ["graph", input @ ..] => draw_one(input),
        ["compare", numbers @ ..] => inputs(numbers).map(run_compare),
        ["raising", numbers @ ..] => inputs(numbers).map(run_raising),
        ["tally", numbers @ ..] => inputs(numbers).map(run_tally),
        ["show", numbers @ ..] => inputs(numbers).map(show),
        _ => None,
    };
    done.unwrap_or_else(|| {
        eprintln!("{USAGE}");
        ExitCode::from(2)
    })
}

fn run_vectors(files: &[&str]) -> Option<ExitCode> {
    let mut differ = 0;
    for file in files {
        let text = match fs::read_to_string(file) {
            Ok(text) => text,
            Err(error) => {
                eprintln!("{file}: {error}");
                return Some(ExitCode::from(2));
            }
        };
        let outcome = on_large_stack(move || vectors::run_cases(&text));
        for difference in &outcome.differences {
            println!("{file}: {difference}");
        }
        let (edges, files) = (outcome.edges, outcome.files);
        println!(
            "{file}: {} agree, {} differ, {edges} edges and {files} files told",
            outcome.agreed,
            outcome.differences.len()
        );
        differ += outcome.differences.len();
    }
    Some(if differ == 0 { ExitCode::SUCCESS } else { ExitCode::FAILURE })
}

fn run_one(words: &[&str]) -> Option<ExitCode> {
    let input = vectors::parse_input(words)?;
    let answer = on_large_stack(move || input.run());
    println!("{}", vectors::answer_words(&answer));
    Some(ExitCode::SUCCESS)
}

/// Prints the file as it is, or the refusal.
fn draw_one(words: &[&str]) -> Option<ExitCode> {
    let input = vectors::parse_input(words)?;
    let answers = on_large_stack(move || input.answers());
    match answers.with_file {
        Answer::Ended(_) => print!("{}", String::from_utf8_lossy(&answers.graph.file)),
        refused => println!("{}", vectors::answer_words(&refused)),
    }
    Some(ExitCode::SUCCESS)
}

/// Count (or index), seed and first index.
fn inputs(words: &[&str]) -> Option<Inputs> {
    let numbers: Option<Vec<u64>> = words.iter().map(|word| word.parse().ok()).collect();
    match numbers?.as_slice() {
        [count] => Some(Inputs { seed: 1, first: 0, count: *count }),
        [count, seed] => Some(Inputs { seed: *seed, first: 0, count: *count }),
        [count, seed, first] => Some(Inputs { seed: *seed, first: *first, count: *count }),
        _ => None,
    }
}

fn run_compare(inputs: Inputs) -> ExitCode {
    let Some(comparison) = compare(inputs) else {
        return without_library();
    };
    print!("{}", comparison.tally);
    counted(comparison.passed, comparison.failed)
}

fn run_raising(inputs: Inputs) -> ExitCode {
    let Some(raising) = raising(inputs) else {
        return without_library();
    };
    print!("{raising}");
    counted(raising.passed, raising.failed)
}

fn without_library() -> ExitCode {
    eprintln!("built without the library: set KLUMAVEC_LIB to its folder and build again");
    ExitCode::from(2)
}

/// The last line, and the status that goes with it.
fn counted(passed: u64, failed: u64) -> ExitCode {
    println!("{passed} passed, {failed} failed");
    if failed == 0 {
        ExitCode::SUCCESS
    } else {
        ExitCode::FAILURE
    }
}

fn run_tally(inputs: Inputs) -> ExitCode {
    print!("{}", tally(inputs).tally);
    ExitCode::SUCCESS
}

fn show(inputs: Inputs) -> ExitCode {
    let (index, seed) = (inputs.count, inputs.seed);
    let line = on_large_stack(move || {
        let input = generate(seed, index);
        let answer = vectors::answer_words(&input.run());
        format!("# {}\n{} {answer}", input.sizes(), vectors::input_line(&input))
    });
    println!("{line}");
    ExitCode::SUCCESS
}
