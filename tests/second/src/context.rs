//! Contexts, behaviours and streams.

#[derive(Clone, Default)]
pub struct Variable {
    /// None while unset.
    pub value: Option<Vec<u8>>,
    /// The export mark.
    pub mark: bool,
}

#[derive(Clone)]
pub struct Arguments {
    pub zero: Vec<u8>,
    pub others: Vec<Vec<u8>>,
}

impl Arguments {
    /// Empty beyond the last.
    pub fn get(&self, number: usize) -> Vec<u8> {
        match number {
            0 => self.zero.clone(),
            _ => self.others.get(number - 1).cloned().unwrap_or_default(),
        }
    }
}

/// Copied whole wherever a rule keeps an earlier one.
#[derive(Clone)]
pub struct Context {
    pub variables: Vec<Variable>,
    pub arguments: Arguments,
    pub result: bool,
}

#[derive(Clone, Copy, Debug, PartialEq, Eq)]
pub enum Behaviour {
    Normal,
    Return,
    Exit,
    Failure,
}

/// How an instruction ended.
pub struct Ending {
    pub behaviour: Behaviour,
    pub context: Context,
}

impl Ending {
    pub fn normal(context: Context) -> Ending {
        Ending { behaviour: Behaviour::Normal, context }
    }

    pub fn failure(context: Context) -> Ending {
        Ending { behaviour: Behaviour::Failure, context }
    }

    /// Puts the result into the context and settles it.
    pub fn settled(mut context: Context, result: bool, condition: bool) -> Ending {
        context.result = result;
        Ending { behaviour: settle(result, condition), context }
    }
}

pub fn settle(result: bool, condition: bool) -> Behaviour {
    if result || condition {
        Behaviour::Normal
    } else {
        Behaviour::Exit
    }
}

/// Where a utility's bytes go.
pub enum Output {
    Stream(Vec<u8>),
    /// Inside nooutput.
    Dropped,
}

impl Output {
    pub fn fresh() -> Output {
        Output::Stream(Vec::new())
    }

    pub fn into_bytes(self) -> Vec<u8> {
        match self {
            Output::Stream(bytes) => bytes,
            Output::Dropped => Vec::new(),
        }
    }
}
