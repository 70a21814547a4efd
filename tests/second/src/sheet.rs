//! Reads sheets and argument sheets, with refusals 3, 4 and 5 in their order.

use crate::answer::{refusal, Refusal};
use crate::tree::*;
use std::rc::Rc;

const MOST_BYTES: usize = 8_192;
const MOST_RECORDS: usize = 512;
const MOST_FUNCTIONS: usize = 32;
const MOST_VARIABLES: usize = 16;
pub const MOST_TEXT: usize = 63;

/// The number of the refusal; the place is the record at hand.
type Fault = u32;
const WRONG: Fault = 4;
const TOO_MANY: Fault = 3;

enum Record {
    String(Rc<StringRecord>),
    List(Rc<List>),
    Instruction(Rc<Instruction>),
    /// A function or main, which nothing may refer to.
    Unreferable,
}

#[derive(Default)]
struct Reading {
    records: Vec<Record>,
    variables: Vec<Vec<u8>>,
    functions: Vec<Function>,
    main: Option<Rc<Instruction>>,
}

pub fn read_sheet(sheet: &[u8]) -> Result<Program, Refusal> {
    if sheet.len() > MOST_BYTES {
        return Err(refusal(3, 0));
    }
    let mut reading = Reading::default();
    let mut rest = sheet;
    while !rest.is_empty() {
        let place = reading.records.len() as u32;
        let at_place = |fault| refusal(fault, place);
        if reading.records.len() == MOST_RECORDS {
            return Err(at_place(TOO_MANY));
        }
        if reading.main.is_some() {
            return Err(at_place(WRONG));
        }
        let (kind, payload, after) = cut_record(rest).ok_or(at_place(WRONG))?;
        let record = reading.record(kind, payload).map_err(at_place)?;
        reading.records.push(record);
        rest = after;
    }
    let records = reading.records.len() as u32;
    let main = reading.main.ok_or(refusal(WRONG, records))?;
    Ok(Program { variables: reading.variables, functions: reading.functions, main })
}

/// Argument 0 first. Any fault is refusal 5.
pub fn read_arguments(sheet: &[u8]) -> Result<Vec<Vec<u8>>, Refusal> {
    let fault = refusal(5, 0);
    let mut arguments = Vec::new();
    let mut rest = sheet;
    while !rest.is_empty() {
        let (kind, payload, after) = cut_record(rest).ok_or(fault)?;
        if kind != 1 || payload.len() > MOST_TEXT {
            return Err(fault);
        }
        arguments.push(payload.to_vec());
        rest = after;
    }
    match arguments.len() {
        1..=17 => Ok(arguments),
        _ => Err(fault),
    }
}

/// Kind, payload and the bytes after the record; none if it is cut short.
pub fn cut_record(bytes: &[u8]) -> Option<(u16, &[u8], &[u8])> {
    let (header, rest) = bytes.split_at_checked(4)?;
    let length = u16::from_le_bytes([header[0], header[1]]) as usize;
    let kind = u16::from_le_bytes([header[2], header[3]]);
    let (payload, after) = rest.split_at_checked(length)?;
    Some((kind, payload, after))
}

/// The payload as exactly N numbers.
fn numbers<const N: usize>(payload: &[u8]) -> Result<[usize; N], Fault> {
    if payload.len() != 2 * N {
        return Err(WRONG);
    }
    Ok(std::array::from_fn(|i| u16::from_le_bytes([payload[2 * i], payload[2 * i + 1]]) as usize))
}

fn is_name(text: &[u8]) -> bool {
    let begins = |byte: u8| byte.is_ascii_alphabetic() || byte == b'_';
    match text.split_first() {
        Some((&first, rest)) => begins(first) && rest.iter().all(|&b| begins(b) || b.is_ascii_digit()),
        None => false,
    }
}

fn code(number: usize) -> Result<Code, Fault> {
    match number {
        0 => Ok(Code::Success),
        1 => Ok(Code::Failure),
        2 => Ok(Code::Previous),
        _ => Err(WRONG),
    }
}

impl Reading {
    fn record(&mut self, kind: u16, payload: &[u8]) -> Result<Record, Fault> {
        let number = self.records.len() as u32;
        match kind {
            1..=5 => {
                let form = self.string_form(kind, payload)?;
                Ok(Record::String(Rc::new(StringRecord { number, form })))
            }
            6..=8 => {
                let form = self.list_form(kind, payload)?;
                Ok(Record::List(Rc::new(List { number, form })))
            }
            16..=30 => {
                let form = self.instruction_form(kind, payload)?;
                Ok(Record::Instruction(Rc::new(Instruction { number, form })))
            }
            32 => self.function(payload),
            33 => {
                let [body] = numbers(payload)?;
                self.main = Some(self.instruction(body)?);
                Ok(Record::Unreferable)
            }
            _ => Err(WRONG),
        }
    }

    fn string_form(&mut self, kind: u16, payload: &[u8]) -> Result<StringForm, Fault> {
        match kind {
            1 if payload.len() <= MOST_TEXT => Ok(StringForm::Text(payload.to_vec())),
            2 => {
                let [name] = numbers(payload)?;
                let name = self.name(name)?;
                Ok(StringForm::Variable(self.slot(name)?))
            }
            3 => {
                let [number] = numbers(payload)?;
                Ok(StringForm::Argument(number))
            }
            4 => {
                let [command] = numbers(payload)?;
                Ok(StringForm::Embedded(self.instruction(command)?))
            }
            5 => {
                let [left, right] = numbers(payload)?;
                Ok(StringForm::Join(self.string(left)?, self.string(right)?))
            }
            _ => Err(WRONG),
        }
    }

    fn list_form(&self, kind: u16, payload: &[u8]) -> Result<ListForm, Fault> {
        if kind == 6 {
            let [] = numbers(payload)?;
            return Ok(ListForm::Empty);
        }
        let [string, rest] = numbers(payload)?;
        let (string, rest) = (self.string(string)?, self.list(rest)?);
        Ok(match kind {
            7 => ListForm::Field(string, rest),
            _ => ListForm::Split(string, rest),
        })
    }

    fn instruction_form(&mut self, kind: u16, payload: &[u8]) -> Result<InstructionForm, Fault> {
        use InstructionForm::*;
        match kind {
            16 | 17 | 26 => self.naming_form(kind, payload),
            19 | 20 | 22 => self.single_form(kind, payload),
            18 | 23 | 27 => self.double_form(kind, payload),
            21 => {
                let [test, then, other] = numbers(payload)?;
                let (test, then) = (self.instruction(test)?, self.instruction(then)?);
                Ok(If(test, then, self.instruction(other)?))
            }
            24 | 25 => {
                let [name, list] = numbers(payload)?;
                let (name, list) = (self.name(name)?, self.list(list)?);
                Ok(if kind == 24 { Utility(name, list) } else { Call(name, list) })
            }
            28 => numbers(payload).and_then(|[number]| Ok(Exit(code(number)?))),
            29 => numbers(payload).and_then(|[number]| Ok(Return(code(number)?))),
            30 => numbers(payload).map(|[number]| Shift(number)),
            _ => Err(WRONG),
        }
    }

    /// The kinds that name a variable. The slot comes last: a wrong reference goes ahead of it.
    fn naming_form(&mut self, kind: u16, payload: &[u8]) -> Result<InstructionForm, Fault> {
        match kind {
            16 => {
                let [name, string] = numbers(payload)?;
                let (name, string) = (self.name(name)?, self.string(string)?);
                Ok(InstructionForm::Assign(self.slot(name)?, string))
            }
            17 => {
                let [name] = numbers(payload)?;
                let name = self.name(name)?;
                Ok(InstructionForm::Export(self.slot(name)?))
            }
            _ => {
                let [name, list, body] = numbers(payload)?;
                let (name, list) = (self.name(name)?, self.list(list)?);
                let body = self.instruction(body)?;
                Ok(InstructionForm::For(self.slot(name)?, list, body))
            }
        }
    }

    fn single_form(&self, kind: u16, payload: &[u8]) -> Result<InstructionForm, Fault> {
        let [inner] = numbers(payload)?;
        let inner = self.instruction(inner)?;
        Ok(match kind {
            19 => InstructionForm::Subshell(inner),
            20 => InstructionForm::Not(inner),
            _ => InstructionForm::Nooutput(inner),
        })
    }

    fn double_form(&self, kind: u16, payload: &[u8]) -> Result<InstructionForm, Fault> {
        let [first, second] = numbers(payload)?;
        let (first, second) = (self.instruction(first)?, self.instruction(second)?);
        Ok(match kind {
            18 => InstructionForm::Sequence(first, second),
            23 => InstructionForm::Pipe(first, second),
            _ => InstructionForm::While(first, second),
        })
    }

    fn function(&mut self, payload: &[u8]) -> Result<Record, Fault> {
        let [name, body] = numbers(payload)?;
        let (name, body) = (self.name(name)?, self.instruction(body)?);
        if self.functions.iter().any(|function| function.name == name) {
            return Err(WRONG);
        }
        if self.functions.len() == MOST_FUNCTIONS {
            return Err(TOO_MANY);
        }
        self.functions.push(Function { name, body });
        Ok(Record::Unreferable)
    }

    fn string(&self, reference: usize) -> Result<Rc<StringRecord>, Fault> {
        match self.records.get(reference) {
            Some(Record::String(string)) => Ok(string.clone()),
            _ => Err(WRONG),
        }
    }

    fn list(&self, reference: usize) -> Result<Rc<List>, Fault> {
        match self.records.get(reference) {
            Some(Record::List(list)) => Ok(list.clone()),
            _ => Err(WRONG),
        }
    }

    fn instruction(&self, reference: usize) -> Result<Rc<Instruction>, Fault> {
        match self.records.get(reference) {
            Some(Record::Instruction(instruction)) => Ok(instruction.clone()),
            _ => Err(WRONG),
        }
    }

    fn name(&self, reference: usize) -> Result<Vec<u8>, Fault> {
        match &self.string(reference)?.form {
            StringForm::Text(text) if is_name(text) => Ok(text.clone()),
            _ => Err(WRONG),
        }
    }

    /// The slot of a variable, a new one at its first naming.
    fn slot(&mut self, name: Vec<u8>) -> Result<usize, Fault> {
        if let Some(slot) = self.variables.iter().position(|known| *known == name) {
            return Ok(slot);
        }
        if self.variables.len() == MOST_VARIABLES {
            return Err(TOO_MANY);
        }
        self.variables.push(name);
        Ok(self.variables.len() - 1)
    }
}
