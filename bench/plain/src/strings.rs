//! Strings and lists: their bytes go to the string in work, their fields behind those that are there.
use crate::nodes::Node;
use crate::run::{value, Behaviour, Listed, Run, Scope, Valued};

impl Run<'_> {
    /// Appends a string's value to the string in work.
    pub(crate) fn string(&mut self, r: u16, flag: bool, s: Scope) -> Valued {
        match self.step(r, s)? {
            Node::Text { from, size } => {
                let program = self.program;
                self.string.extend_from_slice(&program.bytes[from as usize..from as usize + size as usize]);
                Ok(Some(flag))
            }
            Node::Variable(slot) => {
                let v = &self.variables[slot as usize];
                self.string.extend_from_slice(&v.bytes[..v.size as usize]);
                Ok(Some(flag))
            }
            Node::Argument(n) => {
                self.argument(n as usize);
                Ok(Some(flag))
            }
            Node::Embedded(body) => self.embedded(r, body, s),
            Node::Join(left, right) => {
                let from = self.string.len();
                let Some(between) = self.string(left, flag, s)? else { return Ok(None) };
                let Some(last) = self.string(right, between, s)? else { return Ok(None) };
                if self.string.len() - from > 63 {
                    return Err((7, r as u32));
                }
                Ok(Some(last))
            }
            _ => unreachable!(),
        }
    }

    fn argument(&mut self, n: usize) {
        let (from, to) = self.arguments;
        if n == 0 {
            self.string.extend_from_slice(self.zero);
        } else if from + n <= to {
            let v = &self.fields[from + n - 1];
            self.string.extend_from_slice(&v.bytes[..v.size as usize]);
        }
    }

    fn embedded(&mut self, r: u16, body: u16, s: Scope) -> Valued {
        let inner = Scope { dropped: false, ..self.hold(r, s)? };
        let (variables, arguments, result) = (self.variables.clone(), self.arguments, self.result);
        let outer = std::mem::take(&mut self.output);
        let behaviour = self.instr(body, inner)?;
        let stream = std::mem::replace(&mut self.output, outer);
        let flag = self.result;
        self.variables = variables;
        (self.arguments, self.result) = (arguments, result);
        if behaviour == Behaviour::Failure {
            return Ok(None);
        }
        // the newlines at the end are no part of the value
        let size = stream.iter().rposition(|&byte| byte != b'\n').map_or(0, |last| last + 1);
        if size > 63 {
            return Err((7, r as u32));
        }
        self.string.extend_from_slice(&stream[..size]);
        Ok(Some(flag))
    }

    /// Adds a list's fields behind `from`.
    pub(crate) fn list(&mut self, r: u16, from: usize, s: Scope) -> Listed {
        let mut r = r;
        loop {
            let (string, rest, split) = match self.step(r, s)? {
                Node::Empty => return Ok(true),
                Node::Field(string, rest) => (string, rest, false),
                Node::Split(string, rest) => (string, rest, true),
                _ => unreachable!(),
            };
            let start = self.string.len();
            if self.string(string, true, s)?.is_none() {
                self.string.truncate(start);
                return Ok(false);
            }
            if split {
                let pieces = self.string[start..].split(|b| matches!(b, 32 | 9 | 10)).filter(|p| !p.is_empty()).map(value);
                self.fields.extend(pieces);
            } else {
                self.fields.push(value(&self.string[start..]));
            }
            self.string.truncate(start);
            if self.fields.len() - from > 16 {
                return Err((8, r as u32));
            }
            r = rest;
        }
    }
}
