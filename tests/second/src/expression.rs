//! Strings and lists.

use crate::answer::{refusal, Refusal};
use crate::context::*;
use crate::interpret::Interpreter;
use crate::sheet::MOST_TEXT;
use crate::tree::*;
use std::mem;

const MOST_FIELDS: usize = 16;
const NEWLINE: u8 = 10;

/// Why an expression stopped early.
enum Stop {
    Error,
    Refused(Refusal),
}

impl From<Refusal> for Stop {
    fn from(refusal: Refusal) -> Stop {
        Stop::Refused(refusal)
    }
}

/// None for an error, as the enclosing instruction turns it into Failure.
fn unless_error<T>(value: Result<T, Stop>) -> Result<Option<T>, Refusal> {
    match value {
        Ok(value) => Ok(Some(value)),
        Err(Stop::Error) => Ok(None),
        Err(Stop::Refused(refusal)) => Err(refusal),
    }
}

impl Interpreter<'_> {
    /// The value and the flag of a string that stands alone.
    pub(crate) fn expression(
        &mut self,
        string: &StringRecord,
        context: &Context,
        condition: bool,
    ) -> Result<Option<(Vec<u8>, bool)>, Refusal> {
        let mut flag = true;
        let value = unless_error(self.string(string, context, condition, &mut flag))?;
        Ok(value.map(|value| (value, flag)))
    }

    /// The fields of a list; no rule asks for the flag of a list.
    pub(crate) fn fields(
        &mut self,
        list: &List,
        context: &Context,
        condition: bool,
    ) -> Result<Option<Vec<Vec<u8>>>, Refusal> {
        let mut fields = Vec::new();
        let done = self.list(list, context, condition, &mut fields);
        Ok(unless_error(done)?.map(|()| fields))
    }

    fn string(
        &mut self,
        record: &StringRecord,
        context: &Context,
        condition: bool,
        flag: &mut bool,
    ) -> Result<Vec<u8>, Stop> {
        self.step(record.number)?;
        let value = self.string_by_form(record, context, condition, flag);
        self.watched(value)
    }

    fn string_by_form(
        &mut self,
        record: &StringRecord,
        context: &Context,
        condition: bool,
        flag: &mut bool,
    ) -> Result<Vec<u8>, Stop> {
        let place = record.number;
        match &record.form {
            StringForm::Text(text) => Ok(text.clone()),
            StringForm::Variable(slot) => Ok(context.variables[*slot].value.clone().unwrap_or_default()),
            StringForm::Argument(number) => Ok(context.arguments.get(*number)),
            StringForm::Embedded(command) => {
                let (value, result) = self.embedded(place, command, context, condition)?;
                *flag = result;
                fitting(place, value)
            }
            StringForm::Join(left, right) => {
                let mut value = self.string(left, context, condition, flag)?;
                value.extend(self.string(right, context, condition, flag)?);
                fitting(place, value)
            }
        }
    }

    /// Value and result of an embedded command. Its context goes; the input it consumed stays gone.
    fn embedded(
        &mut self,
        place: u32,
        command: &Instruction,
        context: &Context,
        condition: bool,
    ) -> Result<(Vec<u8>, bool), Stop> {
        self.hold(place)?;
        let outer = mem::replace(&mut self.output, Output::fresh());
        let ending = self.instruction(command, context.clone(), condition)?;
        let stream = mem::replace(&mut self.output, outer).into_bytes();
        self.release();
        match ending.behaviour {
            Behaviour::Failure => Err(Stop::Error),
            _ => Ok((embedded_value(stream), ending.context.result)),
        }
    }

    fn list(
        &mut self,
        record: &List,
        context: &Context,
        condition: bool,
        fields: &mut Vec<Vec<u8>>,
    ) -> Result<(), Stop> {
        self.step(record.number)?;
        let done = self.list_by_form(record, context, condition, fields);
        self.watched(done)
    }

    /// What a string or a list came to: the watch notes an error.
    fn watched<T>(&mut self, came_to: Result<T, Stop>) -> Result<T, Stop> {
        if matches!(came_to, Err(Stop::Error)) {
            self.watch.failed(self.profile.steps());
        }
        came_to
    }

    fn list_by_form(
        &mut self,
        record: &List,
        context: &Context,
        condition: bool,
        fields: &mut Vec<Vec<u8>>,
    ) -> Result<(), Stop> {
        // The flag is dropped, so each string may begin with its own.
        let mut flag = true;
        let rest = match &record.form {
            ListForm::Empty => return Ok(()),
            ListForm::Field(string, rest) => {
                fields.push(self.string(string, context, condition, &mut flag)?);
                rest
            }
            ListForm::Split(string, rest) => {
                fields.extend(stretches(&self.string(string, context, condition, &mut flag)?));
                rest
            }
        };
        if fields.len() > MOST_FIELDS {
            return Err(refusal(8, record.number).into());
        }
        self.list(rest, context, condition, fields)
    }
}

/// The stream of an embedded command without the newlines at its end, however many they are. It is
/// whole by now: while it was being written, each of them might still have been followed by more.
fn embedded_value(mut stream: Vec<u8>) -> Vec<u8> {
    while stream.last() == Some(&NEWLINE) {
        stream.pop();
    }
    stream
}

fn fitting(place: u32, value: Vec<u8>) -> Result<Vec<u8>, Stop> {
    if value.len() > MOST_TEXT {
        return Err(refusal(7, place).into());
    }
    Ok(value)
}

fn stretches(value: &[u8]) -> Vec<Vec<u8>> {
    value
        .split(|byte| matches!(byte, 32 | 9 | 10))
        .filter(|stretch| !stretch.is_empty())
        .map(<[u8]>::to_vec)
        .collect()
}
