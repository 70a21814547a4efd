//! The direct interpreter: one function for each rule, over trees, contexts passed by value.

use crate::answer::{refusal, Refusal};
use crate::context::*;
use crate::profile::Profile;
use crate::tree::*;
use crate::watch::Watch;
use std::mem;

const MOST_HOLDS: usize = 10;
const MOST_STREAM: usize = 1_024;

pub struct Limits {
    pub loop_limit: u64,
    pub stack_limit: u64,
    pub budget: u64,
}

pub struct Interpreter<'a> {
    pub(crate) program: &'a Program,
    limits: Limits,
    pub(crate) profile: Profile,
    pub(crate) watch: Watch,
    holds: usize,
    pub(crate) input: Vec<u8>,
    pub(crate) output: Output,
}

type Run = Result<Ending, Refusal>;

impl<'a> Interpreter<'a> {
    pub fn new(program: &'a Program, limits: Limits, input: &[u8]) -> Interpreter<'a> {
        Interpreter {
            program,
            limits,
            profile: Profile::new(program.functions.len()),
            watch: Watch::default(),
            holds: 0,
            input: input.to_vec(),
            output: Output::fresh(),
        }
    }

    /// Main's instruction from the first context. `arguments` begins with argument 0.
    pub fn main(&mut self, arguments: &[Vec<u8>]) -> Run {
        let context = Context {
            variables: vec![Variable::default(); self.program.variables.len()],
            arguments: Arguments { zero: arguments[0].clone(), others: arguments[1..].to_vec() },
            result: true,
        };
        let main = &self.program.main;
        self.instruction(main, context, false)
    }

    pub(crate) fn step(&mut self, place: u32) -> Result<(), Refusal> {
        if self.profile.steps() >= self.limits.budget {
            return Err(refusal(6, place));
        }
        self.profile.step();
        Ok(())
    }

    pub(crate) fn hold(&mut self, place: u32) -> Result<(), Refusal> {
        if self.holds == MOST_HOLDS {
            return Err(refusal(10, place));
        }
        self.holds += 1;
        Ok(())
    }

    pub(crate) fn release(&mut self) {
        self.holds -= 1;
    }

    pub(crate) fn write(&mut self, place: u32, bytes: &[u8]) -> Result<(), Refusal> {
        if let Output::Stream(stream) = &mut self.output {
            if stream.len() + bytes.len() > MOST_STREAM {
                return Err(refusal(9, place));
            }
            stream.extend_from_slice(bytes);
        }
        Ok(())
    }

    pub(crate) fn instruction(&mut self, record: &Instruction, context: Context, condition: bool) -> Run {
        use InstructionForm::*;
        let place = record.number;
        self.step(place)?;
        let run = match &record.form {
            Assign(slot, string) => self.assign(*slot, string, context, condition),
            Export(slot) => Ok(export(*slot, context)),
            Sequence(first, second) => self.sequence(first, second, context, condition),
            Subshell(inner) => self.subshell(place, inner, context, condition),
            Not(inner) => self.not(inner, context),
            If(test, then, other) => self.if_else(test, [then, other], context, condition),
            Nooutput(inner) => self.nooutput(place, inner, context, condition),
            Pipe(first, second) => self.pipe(place, first, second, context, condition),
            Utility(name, list) => self.utility(place, name, list, context, condition),
            Call(name, list) => self.call(place, name, list, context, condition),
            For(slot, list, body) => self.for_each(place, *slot, list, body, context, condition),
            While(test, body) => self.while_loop(test, body, context, condition),
            Exit(code) => Ok(leave(Behaviour::Exit, *code, context)),
            Return(code) => Ok(leave(Behaviour::Return, *code, context)),
            Shift(count) => Ok(shift(*count, context, condition)),
        };
        if matches!(&run, Ok(ending) if ending.behaviour == Behaviour::Failure) {
            self.watch.failed(self.profile.steps());
        }
        run
    }

    fn assign(&mut self, slot: usize, string: &StringRecord, mut context: Context, condition: bool) -> Run {
        let Some((value, flag)) = self.expression(string, &context, condition)? else {
            return Ok(Ending::failure(context));
        };
        context.variables[slot].value = Some(value);
        Ok(Ending::settled(context, flag, condition))
    }

    fn sequence(
        &mut self,
        first: &Instruction,
        second: &Instruction,
        context: Context,
        condition: bool,
    ) -> Run {
        let ending = self.instruction(first, context, condition)?;
        if ending.behaviour != Behaviour::Normal {
            return Ok(ending);
        }
        self.instruction(second, ending.context, condition)
    }

    fn subshell(&mut self, place: u32, inner: &Instruction, context: Context, condition: bool) -> Run {
        self.hold(place)?;
        let ending = self.instruction(inner, context.clone(), condition)?;
        self.release();
        Ok(all_but_result(context, &ending, condition))
    }

    fn not(&mut self, inner: &Instruction, context: Context) -> Run {
        let mut ending = self.instruction(inner, context, true)?;
        if ending.behaviour == Behaviour::Normal {
            ending.context.result = !ending.context.result;
        }
        Ok(ending)
    }

    fn if_else(
        &mut self,
        test: &Instruction,
        [then, other]: [&Instruction; 2],
        context: Context,
        condition: bool,
    ) -> Run {
        let ending = self.instruction(test, context, true)?;
        if ending.behaviour != Behaviour::Normal {
            return Ok(ending);
        }
        let branch = if ending.context.result { then } else { other };
        self.instruction(branch, ending.context, condition)
    }

    fn nooutput(&mut self, place: u32, inner: &Instruction, context: Context, condition: bool) -> Run {
        self.hold(place)?;
        let outer = mem::replace(&mut self.output, Output::Dropped);
        let ending = self.instruction(inner, context, condition)?;
        self.output = outer;
        self.release();
        Ok(ending)
    }

    fn pipe(
        &mut self,
        place: u32,
        first: &Instruction,
        second: &Instruction,
        context: Context,
        condition: bool,
    ) -> Run {
        self.hold(place)?;
        let outer = mem::replace(&mut self.output, Output::fresh());
        let ending = self.instruction(first, context.clone(), condition)?;
        let stream = mem::replace(&mut self.output, outer).into_bytes();
        if ending.behaviour == Behaviour::Failure {
            self.release();
            return Ok(Ending::failure(context));
        }
        let left = mem::replace(&mut self.input, stream);
        let ending = self.instruction(second, context.clone(), condition)?;
        self.input = left;
        self.release();
        Ok(all_but_result(context, &ending, condition))
    }

    fn call(&mut self, place: u32, name: &[u8], list: &List, mut context: Context, condition: bool) -> Run {
        let Some(fields) = self.fields(list, &context, condition)? else {
            return Ok(Ending::failure(context));
        };
        let Some(number) = self.program.function_number(name) else {
            return Ok(Ending::settled(context, false, condition));
        };
        if self.profile.open_calls() == self.limits.stack_limit {
            return Ok(Ending::failure(context));
        }
        self.hold(place)?;
        let before = self.profile.open(number);
        self.watch.opened(self.profile.open_calls());
        let arguments = Arguments { zero: name.to_vec(), others: fields };
        let callers = mem::replace(&mut context.arguments, arguments);
        let body = &self.program.functions[number - 1].body;
        let mut ending = self.instruction(body, context, condition)?;
        ending.context.arguments = callers;
        self.profile.close(before);
        self.release();
        if ending.behaviour == Behaviour::Return {
            ending.behaviour = Behaviour::Normal;
        }
        Ok(ending)
    }

    fn for_each(
        &mut self,
        place: u32,
        slot: usize,
        list: &List,
        body: &Instruction,
        context: Context,
        condition: bool,
    ) -> Run {
        let Some(fields) = self.fields(list, &context, condition)? else {
            return Ok(Ending::failure(context));
        };
        self.hold(place)?;
        let mut flag = true;
        let mut ending = Ending::normal(context);
        for field in fields {
            ending.context.variables[slot].value = Some(field);
            ending = self.instruction(body, ending.context, condition)?;
            flag = ending.context.result;
            if ending.behaviour != Behaviour::Normal {
                break;
            }
        }
        self.release();
        ending.context.result = flag;
        Ok(ending)
    }

    fn while_loop(
        &mut self,
        test: &Instruction,
        body: &Instruction,
        context: Context,
        condition: bool,
    ) -> Run {
        let mut flag = true;
        let mut bodies = 0;
        let mut ending = Ending::normal(context);
        loop {
            ending = self.instruction(test, ending.context, true)?;
            if ending.behaviour != Behaviour::Normal {
                return Ok(ending);
            }
            if !ending.context.result {
                ending.context.result = flag;
                return Ok(ending);
            }
            if bodies == self.limits.loop_limit {
                return Ok(Ending::failure(ending.context));
            }
            bodies += 1;
            self.watch.turned(bodies);
            ending = self.instruction(body, ending.context, condition)?;
            if ending.behaviour != Behaviour::Normal {
                return Ok(ending);
            }
            flag = ending.context.result;
        }
    }
}

/// After a subshell or a pipe: the earlier context with the inner result.
fn all_but_result(earlier: Context, inner: &Ending, condition: bool) -> Ending {
    let result = inner.context.result;
    let ending = Ending::settled(earlier, result, condition);
    match inner.behaviour {
        Behaviour::Failure => Ending::failure(ending.context),
        _ => ending,
    }
}

fn export(slot: usize, mut context: Context) -> Ending {
    context.variables[slot].mark = true;
    context.result = true;
    Ending::normal(context)
}

fn leave(behaviour: Behaviour, code: Code, mut context: Context) -> Ending {
    match code {
        Code::Success => context.result = true,
        Code::Failure => context.result = false,
        Code::Previous => {}
    }
    Ending { behaviour, context }
}

fn shift(count: usize, mut context: Context, condition: bool) -> Ending {
    let enough = context.arguments.others.len() >= count;
    if enough {
        context.arguments.others.drain(..count);
    }
    Ending::settled(context, enough, condition)
}
