//! The baseline: a plain interpreter of sheets, written for speed and not proved. It keeps the same figures and the same limits.
use crate::nodes::{Node, Program};

#[derive(Clone, Copy, PartialEq)]
pub enum Behaviour {
    Normal,
    Return,
    Exit,
    Failure,
}

/// A refusal's number and place.
pub type Refusal = (u32, u32);
pub(crate) type Ran = Result<Behaviour, Refusal>;
/// A string's flag; none after an error.
pub(crate) type Valued = Result<Option<bool>, Refusal>;
/// Whether a list was made.
pub(crate) type Listed = Result<bool, Refusal>;

#[derive(Clone, Copy)]
pub struct Value {
    pub set: bool,
    pub mark: bool,
    pub size: u8,
    pub bytes: [u8; 63],
}

const UNSET: Value = Value { set: false, mark: false, size: 0, bytes: [0; 63] };

#[derive(Clone, Copy, Default)]
pub struct Row {
    pub entered: u32,
    pub own: u32,
    pub inclusive: u32,
    open: u32,
    began: u32,
}

/// What evaluation hands down.
#[derive(Clone, Copy)]
pub(crate) struct Scope {
    pub condition: bool,
    pub holds: u8,
    pub calls: u8,
    pub function: u8,
    pub dropped: bool,
}

pub struct Limits {
    pub loops: u64,
    pub stack: u64,
    pub budget: u64,
}

pub struct Run<'a> {
    pub(crate) program: &'a Program<'a>,
    pub(crate) limits: Limits,
    pub(crate) variables: Vec<Value>,
    pub(crate) fields: Vec<Value>,
    pub(crate) arguments: (usize, usize),
    pub(crate) zero: &'a [u8],
    pub(crate) result: bool,
    pub(crate) input: Vec<u8>,
    pub(crate) read: usize,
    pub(crate) output: Vec<u8>,
    pub(crate) string: Vec<u8>,
    pub(crate) steps: u32,
    pub(crate) rows: Vec<Row>,
}

pub(crate) fn value(bytes: &[u8]) -> Value {
    let mut v = Value { set: true, mark: false, size: bytes.len() as u8, bytes: [0; 63] };
    v.bytes[..bytes.len()].copy_from_slice(bytes);
    v
}

pub(crate) fn settle(b: bool, s: Scope) -> Behaviour {
    if b || s.condition {
        Behaviour::Normal
    } else {
        Behaviour::Exit
    }
}

/// Runs a program; the arguments are argument 0 and the others.
pub fn run<'a>(program: &'a Program<'a>, arguments: &[&'a [u8]], input: &[u8], limits: Limits) -> Result<Vec<u8>, Refusal> {
    let mut run = Run {
        program,
        limits,
        variables: vec![UNSET; program.names.len()],
        fields: arguments[1..].iter().map(|a| value(a)).collect(),
        arguments: (0, arguments.len() - 1),
        zero: arguments[0],
        result: true,
        input: input.to_vec(),
        read: 0,
        output: Vec::with_capacity(1024),
        string: Vec::with_capacity(1024),
        steps: 0,
        rows: vec![Row::default(); program.functions.len() + 1],
    };
    let behaviour = run.instr(program.main, Scope { condition: false, holds: 0, calls: 0, function: 0, dropped: false })?;
    run.rows[0].entered = 1;
    run.rows[0].inclusive = run.steps;
    Ok(run.sheet(behaviour))
}

impl<'a> Run<'a> {
    #[inline]
    pub(crate) fn step(&mut self, r: u16, s: Scope) -> Result<Node, Refusal> {
        if self.steps as u64 == self.limits.budget {
            return Err((6, r as u32));
        }
        self.steps += 1;
        self.rows[s.function as usize].own += 1;
        Ok(self.program.nodes[r as usize])
    }

    #[inline]
    pub(crate) fn hold(&self, r: u16, s: Scope) -> Result<Scope, Refusal> {
        if s.holds == 10 {
            return Err((10, r as u32));
        }
        Ok(Scope { holds: s.holds + 1, ..s })
    }

    pub(crate) fn instr(&mut self, r: u16, s: Scope) -> Ran {
        match self.step(r, s)? {
            Node::Assign(slot, string) => self.assign(slot, string, s),
            Node::Export(slot) => {
                self.variables[slot as usize].mark = true;
                self.result = true;
                Ok(Behaviour::Normal)
            }
            Node::Sequence(a, b) => match self.instr(a, s)? {
                Behaviour::Normal => self.instr(b, s),
                other => Ok(other),
            },
            Node::Subshell(body) => self.subshell(r, body, s),
            Node::Not(body) => self.negate(body, s),
            Node::If(test, yes, no) => match self.instr(test, Scope { condition: true, ..s })? {
                Behaviour::Normal => self.instr(if self.result { yes } else { no }, s),
                other => Ok(other),
            },
            Node::Nooutput(body) => {
                let inner = Scope { dropped: true, ..self.hold(r, s)? };
                self.instr(body, inner)
            }
            Node::Pipe(a, b) => self.pipe(r, a, b, s),
            Node::Utility(tool, list) => self.utility(r, tool, list, s),
            Node::Call(function, list) => self.call(r, function, list, s),
            Node::For(slot, list, body) => self.walk(r, slot, list, body, s),
            Node::While(test, body) => self.repeat(test, body, s),
            Node::Exit(code) => self.leave(code, Behaviour::Exit),
            Node::Return(code) => self.leave(code, Behaviour::Return),
            Node::Shift(n) => {
                let (from, to) = self.arguments;
                self.result = from + n as usize <= to;
                if self.result {
                    self.arguments.0 += n as usize;
                }
                Ok(settle(self.result, s))
            }
            _ => unreachable!(),
        }
    }

    fn leave(&mut self, code: u8, behaviour: Behaviour) -> Ran {
        if code < 2 {
            self.result = code == 0;
        }
        Ok(behaviour)
    }

    fn assign(&mut self, slot: u8, string: u16, s: Scope) -> Ran {
        let from = self.string.len();
        let Some(flag) = self.string(string, true, s)? else {
            self.string.truncate(from);
            return Ok(Behaviour::Failure);
        };
        let size = self.string.len() - from;
        let v = &mut self.variables[slot as usize];
        v.set = true;
        v.size = size as u8;
        v.bytes[..size].copy_from_slice(&self.string[from..]);
        self.string.truncate(from);
        self.result = flag;
        Ok(settle(flag, s))
    }

    fn subshell(&mut self, r: u16, body: u16, s: Scope) -> Ran {
        let inner = self.hold(r, s)?;
        let variables = self.variables.clone();
        let arguments = self.arguments;
        let behaviour = self.instr(body, inner)?;
        self.variables = variables;
        self.arguments = arguments;
        Ok(if behaviour == Behaviour::Failure { behaviour } else { settle(self.result, s) })
    }

    fn negate(&mut self, body: u16, s: Scope) -> Ran {
        let behaviour = self.instr(body, Scope { condition: true, ..s })?;
        if behaviour == Behaviour::Normal {
            self.result = !self.result;
        }
        Ok(behaviour)
    }

    fn pipe(&mut self, r: u16, a: u16, b: u16, s: Scope) -> Ran {
        let inner = self.hold(r, s)?;
        let (variables, arguments, result) = (self.variables.clone(), self.arguments, self.result);
        let outer = std::mem::take(&mut self.output);
        let first = self.instr(a, Scope { dropped: false, ..inner })?;
        let stream = std::mem::replace(&mut self.output, outer);
        self.variables.copy_from_slice(&variables);
        (self.arguments, self.result) = (arguments, result);
        if first == Behaviour::Failure {
            return Ok(Behaviour::Failure);
        }
        let input = std::mem::replace(&mut self.input, stream);
        let read = std::mem::replace(&mut self.read, 0);
        let second = self.instr(b, inner)?;
        (self.input, self.read) = (input, read);
        self.variables = variables;
        self.arguments = arguments;
        Ok(if second == Behaviour::Failure { second } else { settle(self.result, s) })
    }

    fn call(&mut self, r: u16, function: u8, list: u16, s: Scope) -> Ran {
        let from = self.fields.len();
        if !self.list(list, from, s)? {
            self.fields.truncate(from);
            return Ok(Behaviour::Failure);
        }
        if function == 0 {
            self.fields.truncate(from);
            self.result = false;
            return Ok(settle(false, s));
        }
        if s.calls as u64 == self.limits.stack {
            self.fields.truncate(from);
            return Ok(Behaviour::Failure);
        }
        let inner = Scope { calls: s.calls + 1, function, ..self.hold(r, s)? };
        let f = self.program.functions[function as usize - 1];
        let arguments = std::mem::replace(&mut self.arguments, (from, self.fields.len()));
        let zero = std::mem::replace(&mut self.zero, self.program.text(f.name));
        self.enter(function as usize);
        let behaviour = self.instr(f.body, inner)?;
        self.go_back(function as usize);
        (self.arguments, self.zero) = (arguments, zero);
        self.fields.truncate(from);
        Ok(if behaviour == Behaviour::Return { Behaviour::Normal } else { behaviour })
    }

    #[inline]
    fn enter(&mut self, f: usize) {
        let row = &mut self.rows[f];
        row.entered += 1;
        if row.open == 0 {
            row.began = self.steps;
        }
        row.open += 1;
    }

    #[inline]
    fn go_back(&mut self, f: usize) {
        let row = &mut self.rows[f];
        row.open -= 1;
        if row.open == 0 {
            row.inclusive += self.steps - row.began;
        }
    }

    fn walk(&mut self, r: u16, slot: u8, list: u16, body: u16, s: Scope) -> Ran {
        let from = self.fields.len();
        if !self.list(list, from, s)? {
            self.fields.truncate(from);
            return Ok(Behaviour::Failure);
        }
        let inner = self.hold(r, s)?;
        let mut flag = true;
        let mut behaviour = Behaviour::Normal;
        for i in from..self.fields.len() {
            let mark = self.variables[slot as usize].mark;
            self.variables[slot as usize] = Value { mark, ..self.fields[i] };
            behaviour = self.instr(body, inner)?;
            flag = self.result;
            if behaviour != Behaviour::Normal {
                break;
            }
        }
        self.fields.truncate(from);
        self.result = flag;
        Ok(behaviour)
    }

    fn repeat(&mut self, test: u16, body: u16, s: Scope) -> Ran {
        let mut flag = true;
        let mut rounds = 0;
        loop {
            let behaviour = self.instr(test, Scope { condition: true, ..s })?;
            if behaviour != Behaviour::Normal {
                return Ok(behaviour);
            }
            if !self.result {
                self.result = flag;
                return Ok(Behaviour::Normal);
            }
            if rounds == self.limits.loops {
                return Ok(Behaviour::Failure);
            }
            let behaviour = self.instr(body, s)?;
            if behaviour != Behaviour::Normal {
                return Ok(behaviour);
            }
            flag = self.result;
            rounds += 1;
        }
    }
}
