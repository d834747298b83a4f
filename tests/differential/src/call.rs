//! A call of an exported function, and what it must give.

use crate::form;
use crate::place::Refused;

/// What a call is given to work on, in the order of the C parameters; a stored graph is the first input.
#[derive(Debug, Clone)]
pub struct Arguments {
    pub numbers: Vec<u32>,
    pub inputs: Vec<Vec<u8>>,
}

/// The arguments, and the lengths of what is lent beside them.
#[derive(Debug, Clone)]
pub struct Call {
    pub arguments: Arguments,
    /// One length for each answer buffer.
    pub answers: Vec<usize>,
    /// The length of the work room, where the function takes one.
    pub room: Option<usize>,
}

/// What is answered: the two packed numbers, and the bytes at the start of each answer buffer.
#[derive(Debug)]
pub struct Answer {
    pub a: u32,
    pub b: u32,
    pub written: Vec<Vec<u8>>,
}

/// What the arguments alone decide: an answer, or one of the refusals before 10.
pub type Outcome = Result<Answer, Refused>;

/// What a call must give, the lengths of all that is lent being known.
pub type Due<'a> = Result<&'a Answer, Refused>;

impl Arguments {
    pub fn new(numbers: &[u32], inputs: &[&[u8]]) -> Self {
        Arguments {
            numbers: numbers.to_vec(),
            inputs: inputs.iter().map(|input| input.to_vec()).collect(),
        }
    }

    pub fn graph(&self) -> &[u8] {
        &self.inputs[0]
    }

    /// The version of the graph that is read, where there is one.
    pub fn version(&self) -> Option<u16> {
        let form = self.inputs.first()?;
        Some(form::version(form).ok()?.number)
    }
}

impl Answer {
    /// The length of each answer.
    pub fn lengths(&self) -> Vec<usize> {
        self.written.iter().map(Vec::len).collect()
    }
}

/// The number that the function must return: `code | a << 8 | b << 32`. Of a refusal a is the step's index, 0 where there are no steps, and b
/// the place.
pub fn packed(due: Due) -> u64 {
    match due {
        Ok(answer) => u64::from(answer.a) << 8 | u64::from(answer.b) << 32,
        Err(refused) => {
            let step = u64::from(refused.step) << 8;
            refused.refusal as u64 | step | u64::from(refused.place) << 32
        }
    }
}

/// The same number taken apart.
pub fn unpacked(returned: u64) -> (u64, u64, u64) {
    (returned & 0xFF, (returned >> 8) & 0xFF_FFFF, returned >> 32)
}

/// What must stand at the start of an answer buffer; a refusal writes nothing.
pub fn written(due: Due<'_>, buffer: usize) -> &[u8] {
    match due {
        Ok(answer) => &answer.written[buffer],
        Err(_) => &[],
    }
}
