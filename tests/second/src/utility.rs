//! Utilities.

use crate::answer::Refusal;
use crate::context::*;
use crate::interpret::Interpreter;
use crate::tree::*;
use std::mem;

impl Interpreter<'_> {
    pub(crate) fn utility(
        &mut self,
        place: u32,
        name: &[u8],
        list: &List,
        context: Context,
        condition: bool,
    ) -> Result<Ending, Refusal> {
        let Some(fields) = self.fields(list, &context, condition)? else {
            return Ok(Ending::failure(context));
        };
        let result = match name {
            b"true" => true,
            b"echo" => {
                let mut line = fields.join(&b' ');
                line.push(b'\n');
                self.write(place, &line)?;
                true
            }
            b"test" => test(&fields),
            b"cat" if fields.is_empty() => {
                let bytes = mem::take(&mut self.input);
                self.write(place, &bytes)?;
                true
            }
            b"env" if fields.is_empty() => {
                let lines = self.exported(&context);
                self.write(place, &lines)?;
                true
            }
            _ => false,
        };
        Ok(Ending::settled(context, result, condition))
    }

    /// A line for each set variable that carries the mark.
    fn exported(&self, context: &Context) -> Vec<u8> {
        let mut lines = Vec::new();
        for (name, variable) in self.program.variables.iter().zip(&context.variables) {
            if let (true, Some(value)) = (variable.mark, &variable.value) {
                lines.extend_from_slice(name);
                lines.push(b'=');
                lines.extend_from_slice(value);
                lines.push(b'\n');
            }
        }
        lines
    }
}

fn test(fields: &[Vec<u8>]) -> bool {
    match fields {
        [left, sign, right] => sign == b"=" && left == right,
        [sign, field] => sign == b"-n" && !field.is_empty(),
        _ => false,
    }
}
