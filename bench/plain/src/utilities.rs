//! The six utilities, and any other name.
use crate::nodes::Tool;
use crate::run::{settle, Behaviour, Listed, Ran, Refusal, Run, Scope, Value};

impl Run<'_> {
    pub(crate) fn utility(&mut self, r: u16, tool: Tool, list: u16, s: Scope) -> Ran {
        let from = self.fields.len();
        if !self.list(list, from, s)? {
            self.fields.truncate(from);
            return Ok(Behaviour::Failure);
        }
        let none = self.fields.len() == from;
        self.result = match tool {
            Tool::True => true,
            Tool::Echo => self.echo(r, from, s)?,
            Tool::Test => self.test(from),
            Tool::Cat if none => self.cat(r, s)?,
            Tool::Env if none => self.env(r, s)?,
            _ => false,
        };
        self.fields.truncate(from);
        Ok(settle(self.result, s))
    }

    #[inline]
    fn room(&self, r: u16, size: usize) -> Result<(), Refusal> {
        if self.output.len() + size > 1024 {
            return Err((9, r as u32));
        }
        Ok(())
    }

    fn echo(&mut self, r: u16, from: usize, s: Scope) -> Listed {
        if s.dropped {
            return Ok(true);
        }
        let fields = &self.fields[from..];
        let size: usize = fields.iter().map(|f| f.size as usize + 1).sum::<usize>().max(1);
        self.room(r, size)?;
        for (i, f) in fields.iter().enumerate() {
            if i > 0 {
                self.output.push(b' ');
            }
            self.output.extend_from_slice(&f.bytes[..f.size as usize]);
        }
        self.output.push(b'\n');
        Ok(true)
    }

    fn test(&self, from: usize) -> bool {
        let field = |i: usize| &self.fields[from + i].bytes[..self.fields[from + i].size as usize];
        match self.fields.len() - from {
            2 => field(0) == b"-n" && !field(1).is_empty(),
            3 => field(1) == b"=" && field(0) == field(2),
            _ => false,
        }
    }

    fn cat(&mut self, r: u16, s: Scope) -> Listed {
        if !s.dropped {
            self.room(r, self.input.len() - self.read)?;
            self.output.extend_from_slice(&self.input[self.read..]);
        }
        self.read = self.input.len();
        Ok(true)
    }

    fn env(&mut self, r: u16, s: Scope) -> Listed {
        if s.dropped {
            return Ok(true);
        }
        let program = self.program;
        let shown = |v: &Value| v.set && v.mark;
        let size = self.variables.iter().zip(&program.names).filter(|(v, _)| shown(v)).map(|(v, n)| n.len() + v.size as usize + 2).sum();
        self.room(r, size)?;
        for (v, name) in self.variables.iter().zip(&program.names).filter(|(v, _)| shown(v)) {
            self.output.extend_from_slice(name);
            self.output.push(b'=');
            self.output.extend_from_slice(&v.bytes[..v.size as usize]);
            self.output.push(b'\n');
        }
        Ok(true)
    }
}
