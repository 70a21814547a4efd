//! What the tests share: a program under way and the result sheet taken apart.

// Each test file uses its own part of this.
#![allow(dead_code)]

use second::answer::{Answer, Answers, Graph};
use second::run::{on_large_stack, Input, FILE_SIZE, RESULT_SIZE, WORK_SIZE};
use second::sheet::cut_record;
use second::writer::{argument_sheet, Sheet};

pub const NORMAL: u8 = 0;
pub const RETURN: u8 = 1;
pub const EXIT: u8 = 2;
pub const FAILURE: u8 = 3;

/// A sheet with what it is run with.
pub struct Program {
    pub sheet: Sheet,
    pub arguments: Vec<Vec<u8>>,
    pub input: Vec<u8>,
    pub limits: [u64; 3],
}

#[derive(Debug, PartialEq, Eq)]
pub struct Variable {
    pub mark: bool,
    pub name: Vec<u8>,
    pub value: Vec<u8>,
}

/// A result sheet. Functions are times entered, own, inclusive.
#[derive(Debug)]
pub struct Ended {
    pub behaviour: u8,
    pub result: bool,
    pub steps: u32,
    pub output: Vec<u8>,
    pub variables: Vec<Variable>,
    pub functions: Vec<[u32; 3]>,
}

fn number(bytes: &[u8]) -> u32 {
    u32::from_le_bytes(bytes.try_into().expect("four bytes"))
}

impl Ended {
    pub fn of(answer: Answer) -> Ended {
        match answer {
            Answer::Ended(sheet) => Ended::read(&sheet),
            Answer::Refused(number, place) => panic!("refused {number} at {place}"),
        }
    }

    fn read(sheet: &[u8]) -> Ended {
        let (kind, head, mut rest) = cut_record(sheet).expect("a first record");
        assert_eq!((kind, head.len()), (64, 6));
        let (mut output, mut variables, mut functions) = (Vec::new(), Vec::new(), Vec::new());
        let mut kinds = vec![];
        while let Some((kind, payload, after)) = cut_record(rest) {
            kinds.push(kind);
            match kind {
                65 => output = payload.to_vec(),
                66 => {
                    let (name, value) = payload[2..].split_at(payload[1] as usize);
                    let mark = payload[0] == 1;
                    variables.push(Variable { mark, name: name.to_vec(), value: value.to_vec() });
                }
                67 => {
                    assert_eq!(payload[..2], (functions.len() as u16).to_le_bytes());
                    functions.push([number(&payload[2..6]), number(&payload[6..10]), number(&payload[10..])]);
                }
                _ => panic!("kind {kind} in a result sheet"),
            }
            rest = after;
        }
        assert!(rest.is_empty() && kinds.is_sorted() && kinds[0] == 65);
        let (behaviour, result, steps) = (head[0], head[1] == 1, number(&head[2..]));
        Ended { behaviour, result, steps, output, variables, functions }
    }

    /// The value of x, the only variable that is set.
    pub fn x(&self) -> &[u8] {
        let [x] = &self.variables[..] else {
            panic!("{:?}", self.variables);
        };
        assert_eq!((x.mark, &x.name[..]), (false, &b"x"[..]));
        &x.value
    }

    /// Behaviour, result and steps.
    pub fn end(&self) -> (u8, bool, u32) {
        (self.behaviour, self.result, self.steps)
    }
}

impl Program {
    pub fn new(limits: [u64; 3]) -> Program {
        Program { sheet: Sheet::default(), arguments: vec![b"x".to_vec()], input: Vec::new(), limits }
    }

    pub fn input(&self) -> Input {
        let [loop_limit, stack_limit, budget] = self.limits;
        Input {
            sheet: self.sheet.bytes(),
            arguments: argument_sheet(&self.arguments),
            input: self.input.clone(),
            loop_limit,
            stack_limit,
            budget,
            result_size: RESULT_SIZE,
            work_size: WORK_SIZE,
            file_size: FILE_SIZE,
        }
    }

    pub fn answers(&self) -> Answers {
        let input = self.input();
        on_large_stack(move || input.answers())
    }

    /// Makes the instruction main and runs.
    pub fn main(mut self, instruction: u16) -> Answer {
        self.sheet.put(33, &[instruction]);
        self.answers().without_file
    }

    /// The same with a file; the run has to end.
    pub fn draws(mut self, instruction: u16) -> Graph {
        self.sheet.put(33, &[instruction]);
        let answers = self.answers();
        assert_eq!(answers.with_file, answers.without_file);
        assert!(matches!(answers.with_file, Answer::Ended(_)));
        answers.graph
    }

    pub fn ends(self, instruction: u16) -> Ended {
        Ended::of(self.main(instruction))
    }

    /// A utility with a list given by number.
    pub fn utility(&mut self, name: &str, list: u16) -> u16 {
        let name = self.sheet.text(name.as_bytes());
        self.sheet.put(24, &[name, list])
    }

    /// A utility with these texts as fields.
    pub fn command(&mut self, name: &str, texts: &[&str]) -> u16 {
        let mut list = self.sheet.put(6, &[]);
        for text in texts.iter().rev() {
            let text = self.sheet.text(text.as_bytes());
            list = self.sheet.put(7, &[text, list]);
        }
        self.utility(name, list)
    }

    /// An echo of a string and, behind it, a text.
    pub fn echo_string(&mut self, string: u16, text: &str) -> u16 {
        let text = self.sheet.text(text.as_bytes());
        let list = self.sheet.put(6, &[]);
        let list = self.sheet.put(7, &[text, list]);
        let list = self.sheet.put(7, &[string, list]);
        self.utility("echo", list)
    }

    pub fn sequence(&mut self, instructions: &[u16]) -> u16 {
        let (last, others) = instructions.split_last().expect("at least one");
        others.iter().rfold(*last, |rest, first| self.sheet.put(18, &[*first, rest]))
    }

    /// An embedded command with an echo for each line.
    pub fn lines(&mut self, lines: &[&str]) -> u16 {
        let echoes: Vec<u16> = lines.iter().map(|line| self.command("echo", &[line])).collect();
        let command = self.sequence(&echoes);
        self.sheet.put(4, &[command])
    }

    /// Sets x from the string, which has to go well; its value and the steps.
    pub fn sets_x(mut self, string: u16) -> (Vec<u8>, u32) {
        let assign = self.assign("x", string);
        let end = self.ends(assign);
        assert_eq!((end.behaviour, end.result), (NORMAL, true));
        (end.x().to_vec(), end.steps)
    }

    pub fn call(&mut self, name: &str) -> u16 {
        let list = self.sheet.put(6, &[]);
        let name = self.sheet.text(name.as_bytes());
        self.sheet.put(25, &[name, list])
    }

    pub fn function(&mut self, name: &str, body: u16) {
        let name = self.sheet.text(name.as_bytes());
        self.sheet.put(32, &[name, body]);
    }

    pub fn assign(&mut self, name: &str, string: u16) -> u16 {
        let name = self.sheet.text(name.as_bytes());
        self.sheet.put(16, &[name, string])
    }

    /// While there is a first argument, shift; so many arguments are so many turns. A test makes six
    /// steps, a body one.
    pub fn while_arguments(&mut self, count: usize) -> u16 {
        self.arguments.resize(1 + count, b"a".to_vec());
        let argument = self.sheet.put(3, &[1]);
        let (sign, end) = (self.sheet.text(b"-n"), self.sheet.put(6, &[]));
        let list = self.sheet.put(7, &[argument, end]);
        let list = self.sheet.put(7, &[sign, list]);
        let test = self.utility("test", list);
        let shift = self.sheet.put(30, &[1]);
        self.sheet.put(27, &[test, shift])
    }
}

/// The start of a result sheet: behaviour, result true, steps; and a mark for the rest.
pub fn ended(behaviour: u8, steps: u8, rest: u8) -> Answer {
    Answer::Ended(vec![6, 0, 64, 0, behaviour, 1, steps, 0, 0, 0, rest])
}

/// Exercise A without main, under a stack limit and a budget, and the instruction for main.
pub fn exercise_a(stack_limit: u64, budget: u64) -> (Program, u16) {
    let mut program = Program::new([0, stack_limit, budget]);
    let sheet = &mut program.sheet;
    for text in ["f", "a", "b", "-n", "test", "true"] {
        sheet.text(text.as_bytes());
    }
    sheet.put(3, &[1]);
    sheet.put(3, &[2]);
    sheet.put(6, &[]);
    sheet.put(7, &[6, 8]);
    sheet.put(7, &[3, 9]);
    sheet.put(24, &[4, 10]);
    sheet.put(7, &[7, 8]);
    sheet.put(25, &[0, 12]);
    sheet.put(24, &[5, 8]);
    sheet.put(21, &[11, 13, 14]);
    sheet.put(32, &[0, 15]);
    sheet.put(7, &[2, 8]);
    sheet.put(7, &[1, 17]);
    let call = sheet.put(25, &[0, 18]);
    (program, call)
}
