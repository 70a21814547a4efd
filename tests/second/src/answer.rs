//! What a run answers.

use crate::profile::Edge;

#[derive(Clone, Copy, Debug, PartialEq, Eq)]
pub struct Refusal {
    pub number: u32,
    pub place: u32,
}

/// Shorthand, since refusals are made in many places.
pub fn refusal(number: u32, place: u32) -> Refusal {
    Refusal { number, place }
}

#[derive(Clone, Debug, PartialEq, Eq)]
pub enum Answer {
    /// The result sheet.
    Ended(Vec<u8>),
    /// Number and place.
    Refused(u32, u32),
}

/// Failure as the number of a behaviour in a result sheet.
pub const FAILURE: u8 = 3;

/// Of a result sheet only its first record is read here: head of four bytes, behaviour, result, steps.
impl Answer {
    /// None if the run was refused.
    pub fn behaviour(&self) -> Option<u8> {
        match self {
            Answer::Ended(sheet) => Some(sheet[4]),
            Answer::Refused(..) => None,
        }
    }

    /// None if the run was refused.
    pub fn steps(&self) -> Option<u64> {
        match self {
            Answer::Ended(sheet) => {
                Some(u64::from(u32::from_le_bytes([sheet[6], sheet[7], sheet[8], sheet[9]])))
            }
            Answer::Refused(..) => None,
        }
    }
}

impl From<Refusal> for Answer {
    fn from(refusal: Refusal) -> Answer {
        Answer::Refused(refusal.number, refusal.place)
    }
}

/// The call graph of a run that ended; empty where there is none.
#[derive(Clone, Debug, Default, PartialEq, Eq)]
pub struct Graph {
    /// By caller, then by callee.
    pub edges: Vec<Edge>,
    pub file: Vec<u8>,
}

/// What one input is answered with and without a memory for the file.
#[derive(Clone, Debug, PartialEq, Eq)]
pub struct Answers {
    pub without_file: Answer,
    pub with_file: Answer,
    /// Of the run with a file.
    pub graph: Graph,
}
