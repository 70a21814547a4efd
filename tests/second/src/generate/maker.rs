//! The maker of one program: a sheet under way, the limits it will run with, and short ways to add
//! the records that most programs need. Strings, lists and instructions are passed by number.

use crate::random::Random;
use crate::run::{Input, FILE_SIZE, RESULT_SIZE, WORK_SIZE};
use crate::writer::{argument_sheet, Sheet};

pub struct Maker {
    pub random: Random,
    pub sheet: Sheet,
    pub arguments: Vec<Vec<u8>>,
    pub input: Vec<u8>,
    pub loop_limit: u64,
    pub stack_limit: u64,
    pub budget: u64,
    /// Bytes that follow main, which no good sheet has.
    pub tail: Vec<u8>,
    /// Past this number of records only leaves are made.
    pub room: usize,
    /// Names of functions made so far, as a second one would be refused.
    pub functions: Vec<Vec<u8>>,
    pub made: Made,
}

/// Records that may be used again, by sort.
#[derive(Default)]
pub struct Made {
    pub strings: Vec<u16>,
    pub lists: Vec<u16>,
    pub instructions: Vec<u16>,
}

impl Maker {
    pub fn new(mut random: Random) -> Maker {
        let room = random.pick(&[12, 40, 90, 160]);
        Maker {
            sheet: Sheet::default(),
            arguments: vec![b"x".to_vec()],
            input: Vec::new(),
            loop_limit: random.below(6) as u64,
            stack_limit: random.below(11) as u64,
            budget: random.pick(&[150, 900, 1_500]),
            tail: Vec::new(),
            room,
            functions: Vec::new(),
            made: Made::default(),
            random,
        }
    }

    /// Records ahead of the program, so that the numbers of its own take more than a byte.
    pub fn pad(&mut self) {
        let count = self.random.pick(&[1, 100, 240, 256, 300, 380]);
        for _ in 0..count {
            match self.random.below(3) {
                0 => self.sheet.put(6, &[]),
                1 => self.sheet.put(3, &[0]),
                _ => self.sheet.text(b""),
            };
        }
        self.room += count;
    }

    /// The program with this instruction as main.
    pub fn finish(&mut self, main: u16) -> Input {
        self.sheet.put(33, &[main]);
        Input {
            sheet: [self.sheet.bytes(), self.tail.clone()].concat(),
            arguments: argument_sheet(&self.arguments),
            input: self.input.clone(),
            loop_limit: self.loop_limit,
            stack_limit: self.stack_limit,
            budget: self.budget,
            result_size: RESULT_SIZE,
            work_size: WORK_SIZE,
            file_size: FILE_SIZE,
        }
    }

    /// A text record of these bytes, mostly one that is there already.
    pub fn text(&mut self, text: &[u8]) -> u16 {
        let known = self.sheet.records.iter().position(|r| r.kind == 1 && r.payload == text);
        match known {
            Some(number) if self.random.chance(850) => number as u16,
            _ => self.sheet.text(text),
        }
    }

    pub fn variable(&mut self, name: &str) -> u16 {
        let name = self.text(name.as_bytes());
        self.sheet.put(2, &[name])
    }

    pub fn argument(&mut self, number: usize) -> u16 {
        self.sheet.put(3, &[number as u16])
    }

    pub fn embedded(&mut self, command: u16) -> u16 {
        self.sheet.put(4, &[command])
    }

    pub fn join(&mut self, left: u16, right: u16) -> u16 {
        self.sheet.put(5, &[left, right])
    }

    pub fn empty(&mut self) -> u16 {
        let known = self.sheet.records.iter().position(|record| record.kind == 6);
        match known {
            Some(number) if self.random.chance(850) => number as u16,
            _ => self.sheet.put(6, &[]),
        }
    }

    /// A list of these strings, one field each.
    pub fn fields(&mut self, strings: &[u16]) -> u16 {
        let mut list = self.empty();
        for &string in strings.iter().rev() {
            list = self.sheet.put(7, &[string, list]);
        }
        list
    }

    pub fn split(&mut self, string: u16, rest: u16) -> u16 {
        self.sheet.put(8, &[string, rest])
    }

    pub fn assign(&mut self, name: &str, string: u16) -> u16 {
        let name = self.text(name.as_bytes());
        self.sheet.put(16, &[name, string])
    }

    pub fn export(&mut self, name: &str) -> u16 {
        let name = self.text(name.as_bytes());
        self.sheet.put(17, &[name])
    }

    pub fn sequence(&mut self, instructions: &[u16]) -> u16 {
        let (&last, others) = instructions.split_last().expect("at least one instruction");
        others.iter().rev().fold(last, |rest, &first| self.sheet.put(18, &[first, rest]))
    }

    pub fn utility(&mut self, name: &str, list: u16) -> u16 {
        let name = self.text(name.as_bytes());
        self.sheet.put(24, &[name, list])
    }

    /// A utility without fields.
    pub fn bare(&mut self, name: &str) -> u16 {
        let list = self.empty();
        self.utility(name, list)
    }

    pub fn echo(&mut self, strings: &[u16]) -> u16 {
        let list = self.fields(strings);
        self.utility("echo", list)
    }

    pub fn echo_text(&mut self, text: &[u8]) -> u16 {
        let text = self.text(text);
        self.echo(&[text])
    }

    /// `test -n` of a string.
    pub fn is_set(&mut self, string: u16) -> u16 {
        let sign = self.text(b"-n");
        let list = self.fields(&[sign, string]);
        self.utility("test", list)
    }

    /// `test` of two strings for equality.
    pub fn is_equal(&mut self, left: u16, right: u16) -> u16 {
        let sign = self.text(b"=");
        let list = self.fields(&[left, sign, right]);
        self.utility("test", list)
    }

    pub fn call(&mut self, name: &str, strings: &[u16]) -> u16 {
        let list = self.fields(strings);
        let name = self.text(name.as_bytes());
        self.sheet.put(25, &[name, list])
    }

    pub fn function(&mut self, name: &str, body: u16) {
        self.functions.push(name.as_bytes().to_vec());
        let name = self.text(name.as_bytes());
        self.sheet.put(32, &[name, body]);
    }

    /// A function of a name not in use; its name.
    pub fn fresh_function(&mut self, body: u16) -> String {
        let name = format!("fn_{}", self.functions.len());
        self.function(&name, body);
        name
    }

    pub fn for_each(&mut self, name: &str, list: u16, body: u16) -> u16 {
        let name = self.text(name.as_bytes());
        self.sheet.put(26, &[name, list, body])
    }

    /// Ends in Failure at once, if the loop limit is low or the stack limit reached; else it runs long.
    pub fn endless(&mut self) -> u16 {
        let yes = self.bare("true");
        self.sheet.put(27, &[yes, yes])
    }

    /// Shows arguments, variables and marks.
    pub fn probe(&mut self) -> u16 {
        let shown = [self.argument(0), self.argument(1), self.variable("x"), self.variable("y")];
        let echo = self.echo(&shown);
        let env = self.bare("env");
        self.sequence(&[echo, env])
    }

    pub fn word(&mut self, length: usize) -> Vec<u8> {
        let letter = self.random.between(b'a' as usize, b'z' as usize) as u8;
        vec![letter; length]
    }
}
