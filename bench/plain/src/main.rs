//! plain measure: runs every sheet of the benchmark through the library and through the plain interpreter, which must agree, and prints
//!     GROUP NAME STEPS LIBRARY PLAIN
//! a line each, with the best of several times in nanoseconds a run; the two are timed in turn.
//! plain once GROUP NAME library|plain: one of these runs by one of the two.
//! plain output NAME: what the library's run of a case writes.
//! plain vectors FILE..: judged cases through the plain interpreter, so that the baseline is known to run scripts and not something else.
mod library;
mod nodes;
mod result;
mod run;
mod sheets;
mod strings;
mod utilities;

use library::Memories;
use sheets::Sheet;
use std::time::Instant;

const ARGUMENT: &[u8] = &[1, 0, 1, 0, b'x'];
type Limits = (u64, u64, u64);

fn texts(sheet: &[u8]) -> Vec<&[u8]> {
    let mut at = 0;
    let mut all = Vec::new();
    while at < sheet.len() {
        let size = u16::from_le_bytes([sheet[at], sheet[at + 1]]) as usize;
        all.push(&sheet[at + 4..at + 4 + size]);
        at += 4 + size;
    }
    all
}

fn plainly(sheet: &[u8], arguments: &[u8], input: &[u8], limits: Limits) -> Result<Vec<u8>, (u32, u32)> {
    let program = nodes::Program::read(sheet);
    let (loops, stack, budget) = limits;
    run::run(&program, &texts(arguments), input, run::Limits { loops, stack, budget })
}

/// How many runs last a while.
fn runs(mut once: impl FnMut()) -> u32 {
    let start = Instant::now();
    once();
    (20_000_000 / start.elapsed().as_nanos().max(1)).clamp(1, 20_000) as u32
}

/// Nanoseconds a run, over so many runs.
fn time(runs: u32, mut once: impl FnMut()) -> f64 {
    let start = Instant::now();
    for _ in 0..runs {
        once();
    }
    start.elapsed().as_nanos() as f64 / runs as f64
}

/// The shortest of several times of each of the two, taken in turn: what else the machine does then falls on both.
fn best(mut one: impl FnMut(), mut other: impl FnMut()) -> (f64, f64) {
    let (ones, others) = (runs(&mut one), runs(&mut other));
    (0..8).fold((f64::MAX, f64::MAX), |least, _| (least.0.min(time(ones, &mut one)), least.1.min(time(others, &mut other))))
}

fn measure(group: &str, name: &str, sheet: &Sheet, limits: Limits) {
    let bytes = &sheet.bytes;
    let mut memories = Memories::new();
    let told = memories.run(bytes, ARGUMENT, &[], limits).map(|r| r.to_vec());
    assert!(told == plainly(bytes, ARGUMENT, &[], limits), "{group} {name}: the two do not agree");
    let result = told.unwrap_or_else(|refusal| panic!("{group} {name}: refused {refusal:?}"));
    let steps = u32::from_le_bytes([result[6], result[7], result[8], result[9]]);
    let (library, plain) = best(
        || {
            std::hint::black_box(memories.run(bytes, ARGUMENT, &[], limits).is_ok());
        },
        || {
            std::hint::black_box(plainly(bytes, ARGUMENT, &[], limits).is_ok());
        },
    );
    println!("{group} {name} {steps} {library:.1} {plain:.1}");
}

/// Every sheet that is measured: its group, its name, the sheet, its limits.
fn cases() -> Vec<(&'static str, String, Sheet, Limits)> {
    let whole = (65_535, 10, 1_000_000);
    let mut all = vec![
        ("kind", "recursion".to_string(), sheets::recursion(), whole),
        ("kind", "fields".to_string(), sheets::fields(), whole),
        ("kind", "strings".to_string(), sheets::strings(), whole),
        ("kind", "lines".to_string(), sheets::lines(), whole),
        ("kind", "texts".to_string(), sheets::texts(), whole),
        ("kind", "rounds".to_string(), sheets::rounds(), whole),
        ("kind", "embedded".to_string(), sheets::embedded(), whole),
        ("kind", "pipes".to_string(), sheets::pipes(), whole),
    ];
    for rounds in [0, 1, 6, 62, 625, 6_250, 62_499] {
        all.push(("steps", rounds.to_string(), sheets::steps(), (rounds, 10, 1_000_000)));
    }
    for deep in [1, 10, 50, 100, 250, 500] {
        all.push(("nesting", deep.to_string(), sheets::nested(deep), (256, 10, 1_000_000)));
    }
    for holds in 1..=10 {
        all.push(("holds", holds.to_string(), sheets::held(holds), (10_000, 10, 1_000_000)));
    }
    for records in [5, 64, 128, 256, 512] {
        all.push(("sheet", records.to_string(), sheets::padded(records), whole));
    }
    all
}

/// What a run of a case writes: the second record of its result sheet.
fn output(name: &str) {
    let (_, _, sheet, limits) = found("kind", name);
    let mut memories = Memories::new();
    let result = memories.run(&sheet.bytes, ARGUMENT, &[], limits).expect("an end");
    let size = u16::from_le_bytes([result[10], result[11]]) as usize;
    print!("{}", String::from_utf8_lossy(&result[14..14 + size]));
}

fn found(group: &str, name: &str) -> (&'static str, String, Sheet, Limits) {
    cases().into_iter().find(|c| c.0 == group && c.1 == name).unwrap_or_else(|| panic!("no case {group} {name}"))
}

/// One run of one case by one of the two, for a tool that counts instructions.
fn once(group: &str, name: &str, library: bool) {
    let (_, _, sheet, limits) = found(group, name);
    let mut memories = Memories::new();
    let size = match library {
        true => memories.run(&sheet.bytes, ARGUMENT, &[], limits).map(|r| r.len()),
        false => plainly(&sheet.bytes, ARGUMENT, &[], limits).map(|r| r.len()),
    };
    println!("{size:?}");
}

fn unhex(s: &str) -> Vec<u8> {
    let s = s.strip_prefix('-').unwrap_or(s);
    (0..s.len() / 2).map(|i| u8::from_str_radix(&s[2 * i..2 * i + 2], 16).expect("hex")).collect()
}

/// Whether the plain interpreter gives what a line of judged cases says; none where the sheet, the arguments or the limits are refused.
fn judged(line: &str) -> Option<bool> {
    let words: Vec<&str> = line.split(' ').collect();
    let number = |i: usize| words[i].parse::<u64>().expect("number");
    let want = match words[6] {
        "refused" => Err((number(7) as u32, number(8) as u32)),
        sheet => Ok(unhex(sheet)),
    };
    if matches!(want, Err((n, _)) if n < 6) {
        return None;
    }
    let told = plainly(&unhex(words[0]), &unhex(words[1]), &unhex(words[2]), (number(3), number(4), number(5)));
    Some(told == want)
}

fn vectors(files: &[String]) {
    let (mut same, mut other) = (0, 0);
    for file in files {
        let text = std::fs::read_to_string(file).unwrap_or_else(|why| panic!("{file}: {why}"));
        // lines on call graphs stand behind some runs: they are no runs
        for line in text.lines().filter(|l| !["#", "edge ", "file "].iter().any(|word| l.starts_with(word))) {
            match judged(line) {
                Some(true) => same += 1,
                Some(false) => {
                    other += 1;
                    println!("not as judged: {line}");
                }
                None => {}
            }
        }
    }
    println!("{same} passed, {other} failed");
}

fn main() {
    let words: Vec<String> = std::env::args().skip(1).collect();
    match words.first().map(String::as_str) {
        Some("measure") => cases().iter().for_each(|(group, name, sheet, limits)| measure(group, name, sheet, *limits)),
        Some("once") if words.len() == 4 => once(&words[1], &words[2], words[3] == "library"),
        Some("output") if words.len() == 2 => output(&words[1]),
        Some("vectors") => vectors(&words[1..]),
        _ => println!("plain measure | plain once GROUP NAME library|plain | plain output NAME | plain vectors FILE.."),
    }
}
