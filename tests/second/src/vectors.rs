//! Judged cases: one run on each line, the answer at its end. Lines after it may tell the edges of
//! the run and the whole file.

use crate::answer::{Answer, Answers};
use crate::hex::{from_hex, to_hex};
use crate::profile::Edge;
use crate::run::{Input, FILE_SIZE, RESULT_SIZE, WORK_SIZE};

#[derive(Debug, PartialEq, Eq)]
pub struct Case {
    pub input: Input,
    pub answer: Answer,
    /// Which of the two runs the answer is of; none for both.
    pub with_file: Option<bool>,
    /// None where the file of cases tells no edges.
    pub edges: Option<Vec<Edge>>,
    pub file: Option<Vec<u8>>,
}

/// The six words before the answer.
pub fn parse_input(words: &[&str]) -> Option<Input> {
    let [sheet, arguments, input, loop_limit, stack_limit, budget] = words else {
        return None;
    };
    Some(Input {
        sheet: from_hex(sheet)?,
        arguments: from_hex(arguments)?,
        input: from_hex(input)?,
        loop_limit: loop_limit.parse().ok()?,
        stack_limit: stack_limit.parse().ok()?,
        budget: budget.parse().ok()?,
        result_size: RESULT_SIZE,
        work_size: WORK_SIZE,
        file_size: FILE_SIZE,
    })
}

/// A run's line; three sizes may stand ahead of the answer, `-` for no memory for a file.
pub fn parse_case(line: &str) -> Option<Case> {
    let words: Vec<&str> = line.split(' ').collect();
    let (input, answer) = words.split_at_checked(6)?;
    let mut input = parse_input(input)?;
    let (sizes, answer) = match answer {
        [result, work, file, answer @ ..] if !answer.is_empty() => (Some([result, work, file]), answer),
        _ => (None, answer),
    };
    let mut with_file = None;
    if let Some([result, work, file]) = sizes {
        (input.result_size, input.work_size) = (result.parse().ok()?, work.parse().ok()?);
        with_file = Some(*file != "-");
        if *file != "-" {
            input.file_size = file.parse().ok()?;
        }
    }
    let answer = match answer {
        ["refused", number, place] => Answer::Refused(number.parse().ok()?, place.parse().ok()?),
        [sheet] => Answer::Ended(from_hex(sheet)?),
        _ => return None,
    };
    Some(Case { input, answer, with_file, edges: None, file: None })
}

fn parse_edge(words: &str) -> Option<Edge> {
    let numbers: Option<Vec<u32>> = words.split(' ').map(|word| word.parse().ok()).collect();
    let [caller, callee, calls, inclusive] = numbers?[..] else {
        return None;
    };
    Some(Edge { caller: caller as usize, callee: callee as usize, calls, inclusive })
}

pub fn input_line(input: &Input) -> String {
    format!(
        "{} {} {} {} {} {}",
        to_hex(&input.sheet),
        to_hex(&input.arguments),
        to_hex(&input.input),
        input.loop_limit,
        input.stack_limit,
        input.budget
    )
}

pub fn answer_words(answer: &Answer) -> String {
    match answer {
        Answer::Ended(sheet) => to_hex(sheet),
        Answer::Refused(number, place) => format!("refused {number} {place}"),
    }
}

#[derive(Default)]
pub struct Outcome {
    pub agreed: usize,
    /// Among the cases that agree.
    pub edges: usize,
    pub files: usize,
    pub differences: Vec<String>,
}

/// Runs every case of a file's text; to be called where the native stack is large.
pub fn run_cases(text: &str) -> Outcome {
    let mut outcome = Outcome::default();
    for (at, case) in parse_cases(text) {
        let Some(case) = case else {
            outcome.differences.push(format!("{at}: cannot be read"));
            continue;
        };
        let answers = case.input.answers();
        if case.agrees(&answers) {
            outcome.agreed += 1;
            outcome.edges += case.edges.as_ref().map_or(0, Vec::len);
            outcome.files += usize::from(case.file.is_some());
        } else {
            outcome.differences.push(difference(&at, &case, &answers));
        }
    }
    outcome
}

/// Each case with where it stands; none where a line cannot be read.
fn parse_cases(text: &str) -> Vec<(String, Option<Case>)> {
    // An ended run without such a line has no edge, unless the file tells none of any run.
    let tells_edges = text.lines().any(|line| line.starts_with("edge "));
    let mut cases: Vec<(String, Option<Case>)> = Vec::new();
    let mut name = "";
    for (number, line) in text.lines().enumerate() {
        let at = format!("line {} {name}", number + 1);
        if line.starts_with('#') {
            name = line;
        } else if line.starts_with("edge ") || line.starts_with("file ") {
            let told = cases.last_mut().and_then(|(_, case)| case.as_mut()).and_then(|case| case.tell(line));
            if told.is_none() {
                cases.push((at, None));
            }
        } else if !line.is_empty() {
            let mut case = parse_case(line);
            if let (Some(case), true) = (&mut case, tells_edges) {
                case.edges = Some(Vec::new());
            }
            cases.push((at, case));
        }
    }
    cases
}

impl Case {
    /// Takes in a line about the graph.
    fn tell(&mut self, line: &str) -> Option<()> {
        match line.split_once(' ')? {
            ("edge", words) => self.edges.as_mut()?.push(parse_edge(words)?),
            (_, digits) => self.file = Some(from_hex(digits)?),
        }
        Some(())
    }

    fn agrees(&self, answers: &Answers) -> bool {
        let run = self.with_file == Some(true) || self.answer == answers.without_file;
        let graph = self.with_file == Some(false) || self.answer == answers.with_file;
        let edges = self.edges.as_ref().is_none_or(|edges| *edges == answers.graph.edges);
        let file = self.file.as_ref().is_none_or(|file| *file == answers.graph.file);
        run && graph && edges && file
    }
}

fn difference(at: &str, case: &Case, answers: &Answers) -> String {
    format!(
        "{at}\n  {}\n  expected {}\n    edges {:?}\n  answered {}\n  with a file {}\n    edges {:?}\n    {}",
        input_line(&case.input),
        answer_words(&case.answer),
        case.edges,
        answer_words(&answers.without_file),
        answer_words(&answers.with_file),
        answers.graph.edges,
        to_hex(&answers.graph.file)
    )
}
