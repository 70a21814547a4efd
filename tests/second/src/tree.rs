//! Programs as trees. Every node keeps the number of the record it came from, as refusals name it.

use std::rc::Rc;

pub struct StringRecord {
    pub number: u32,
    pub form: StringForm,
}

pub enum StringForm {
    Text(Vec<u8>),
    /// The slot of the variable.
    Variable(usize),
    Argument(usize),
    Embedded(Rc<Instruction>),
    Join(Rc<StringRecord>, Rc<StringRecord>),
}

pub struct List {
    pub number: u32,
    pub form: ListForm,
}

pub enum ListForm {
    Empty,
    Field(Rc<StringRecord>, Rc<List>),
    Split(Rc<StringRecord>, Rc<List>),
}

pub struct Instruction {
    pub number: u32,
    pub form: InstructionForm,
}

pub enum InstructionForm {
    Assign(usize, Rc<StringRecord>),
    Export(usize),
    Sequence(Rc<Instruction>, Rc<Instruction>),
    Subshell(Rc<Instruction>),
    Not(Rc<Instruction>),
    If(Rc<Instruction>, Rc<Instruction>, Rc<Instruction>),
    Nooutput(Rc<Instruction>),
    Pipe(Rc<Instruction>, Rc<Instruction>),
    Utility(Vec<u8>, Rc<List>),
    Call(Vec<u8>, Rc<List>),
    For(usize, Rc<List>, Rc<Instruction>),
    While(Rc<Instruction>, Rc<Instruction>),
    Exit(Code),
    Return(Code),
    Shift(usize),
}

#[derive(Clone, Copy)]
pub enum Code {
    Success,
    Failure,
    Previous,
}

pub struct Function {
    pub name: Vec<u8>,
    pub body: Rc<Instruction>,
}

pub struct Program {
    /// Names of the variables by slot.
    pub variables: Vec<Vec<u8>>,
    /// Function 1 comes first here; main is function 0 and stands apart.
    pub functions: Vec<Function>,
    pub main: Rc<Instruction>,
}

impl Program {
    /// The number of the function of that name, if there is one.
    pub fn function_number(&self, name: &[u8]) -> Option<usize> {
        self.functions.iter().position(|function| function.name == name).map(|position| position + 1)
    }
}
