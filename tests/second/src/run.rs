//! A whole run, without a file or with one: refusals 1 to 5 and 14 in their order, then the interpreter.

use crate::answer::{refusal, Answer, Answers, Graph, Refusal};
use crate::callgrind::callgrind_file;
use crate::context::Output;
use crate::interpret::{Interpreter, Limits};
use crate::result::result_sheet;
use crate::sheet::{read_arguments, read_sheet};
use crate::watch::Watch;
use std::mem;
use std::thread;

pub const RESULT_SIZE: usize = 4_096;
pub const WORK_SIZE: usize = 65_536;
pub const FILE_SIZE: usize = 65_536;
/// Instructions, strings and lists nest thousands deep over ten open calls.
pub const NATIVE_STACK: usize = 64 << 20;

/// One input: what is lent to the runner, with the sizes of the memories to be written to. That of
/// the file concerns only a run with a file.
#[derive(Clone, Debug, PartialEq, Eq)]
pub struct Input {
    pub sheet: Vec<u8>,
    pub arguments: Vec<u8>,
    pub input: Vec<u8>,
    pub loop_limit: u64,
    pub stack_limit: u64,
    pub budget: u64,
    pub result_size: usize,
    pub work_size: usize,
    pub file_size: usize,
}

/// What a run leaves behind when it ends: the result sheet and the graph.
type End = (Vec<u8>, Graph);

/// A run without a file.
#[allow(clippy::too_many_arguments)]
pub fn run(
    sheet: &[u8],
    arguments: &[u8],
    input: &[u8],
    loop_limit: u64,
    stack_limit: u64,
    budget: u64,
    result_size: usize,
    work_size: usize,
) -> Answer {
    let input = Input {
        sheet: sheet.to_vec(),
        arguments: arguments.to_vec(),
        input: input.to_vec(),
        loop_limit,
        stack_limit,
        budget,
        result_size,
        work_size,
        file_size: FILE_SIZE,
    };
    on_large_stack(move || input.run())
}

/// Runs the work on a thread with room for deep recursion.
pub fn on_large_stack<T: Send + 'static>(work: impl FnOnce() -> T + Send + 'static) -> T {
    let thread = thread::Builder::new().stack_size(NATIVE_STACK).spawn(work);
    thread.expect("a thread can be started").join().expect("the work ends")
}

impl Input {
    /// Without a file. To be called where the native stack is large.
    pub fn run(&self) -> Answer {
        self.answers().without_file
    }

    /// Both answers; what is evaluated is the same.
    pub fn answers(&self) -> Answers {
        self.watched().0
    }

    /// Both answers, and what the watch saw of the evaluation.
    pub fn watched(&self) -> (Answers, Watch) {
        let mut watch = Watch::default();
        let evaluated = self.evaluated(&mut watch);
        let without_file = self.memories().and(evaluated.clone());
        let with_file = self.memories().and(self.file_memory()).and(evaluated);
        let (with_file, graph) = match with_file {
            Ok((sheet, graph)) => (Answer::Ended(sheet), graph),
            Err(refusal) => (refusal.into(), Graph::default()),
        };
        let without_file = without_file.map_or_else(Answer::from, |(sheet, _)| Answer::Ended(sheet));
        (Answers { without_file, with_file, graph }, watch)
    }

    /// The sizes of the memories in words.
    pub fn sizes(&self) -> String {
        let (result, work, file) = (self.result_size, self.work_size, self.file_size);
        format!("result memory {result}, work memory {work}, file memory {file}")
    }

    /// The steps made, also by a run that was refused on its way.
    pub fn steps(&self) -> u64 {
        let mut watch = Watch::default();
        if self.memories().is_ok() {
            // Only how far it came is asked.
            let _ = self.evaluated(&mut watch);
        }
        watch.steps
    }

    fn memories(&self) -> Result<(), Refusal> {
        if self.result_size < RESULT_SIZE || self.work_size != WORK_SIZE {
            return Err(refusal(1, 0));
        }
        Ok(())
    }

    fn file_memory(&self) -> Result<(), Refusal> {
        if self.file_size < FILE_SIZE {
            return Err(refusal(14, 0));
        }
        Ok(())
    }

    fn limits(&self) -> Result<Limits, Refusal> {
        if self.loop_limit > 65_535
            || self.stack_limit > 10
            || self.budget == 0
            || self.budget > 1_000_000
            || self.input.len() > 1_024
        {
            return Err(refusal(2, 0));
        }
        Ok(Limits { loop_limit: self.loop_limit, stack_limit: self.stack_limit, budget: self.budget })
    }

    /// All that comes after the sizes of memories.
    fn evaluated(&self, watch: &mut Watch) -> Result<End, Refusal> {
        let limits = self.limits()?;
        let program = read_sheet(&self.sheet)?;
        let arguments = read_arguments(&self.arguments)?;
        let mut interpreter = Interpreter::new(&program, limits, &self.input);
        let ending = interpreter.main(&arguments);
        *watch = interpreter.watch;
        watch.steps = interpreter.profile.steps();
        let ending = ending?;
        let output = mem::replace(&mut interpreter.output, Output::Dropped).into_bytes();
        let figures = interpreter.profile.figures();
        let sheet = result_sheet(&program, &figures, &ending, &output);
        let file = callgrind_file(&program, &figures);
        Ok((sheet, Graph { edges: figures.edges, file }))
    }
}
