//! What is known of an exported function, and the calls that it is tried with.

use crate::call::{Answer, Arguments, Call, Due, Outcome};
use crate::form::{Drawing, Refusal, VERSION_2};
use crate::rng::Rng;
use crate::rooms::Rooms;

/// An exported function.
pub struct Operation {
    /// Its number in a recorded list, whatever rows there are.
    pub number: u8,
    pub name: &'static str,
    /// In the order of the C declaration.
    pub parameters: &'static [Parameter],
    /// The refusals that it gives.
    pub refusals: &'static [u8],
    /// Arguments picked by hand: for each of its refusals by 7, 8, 11, 16 and 9, and for the last sizes before 9.
    pub picked: fn() -> Vec<Arguments>,
    /// The arguments to try it with on a stored graph.
    pub arguments: fn(&[u8], &mut Rng) -> Vec<Arguments>,
    /// What the arguments decide: the refusals from 1 on in their order, and then the original's answer. Lengths of
    /// buffers, and so 10, are left to [`Function::due`].
    pub expected: fn(&Arguments) -> Outcome,
}

/// A parameter of the C function. All but a number are a pointer and a length.
#[derive(Debug, Clone, Copy, PartialEq, Eq)]
pub enum Parameter {
    Number,
    Input,
    Answered,
    /// Work room, whose length the C header names.
    Room,
}

/// Functions that are tried on the same stored forms.
pub struct Group {
    pub name: &'static str,
    pub operations: &'static [Operation],
    /// How large its part of a run's calls is, beside the other groups' parts.
    pub share: u64,
    /// Forms that every run takes.
    pub fixed: fn(&mut Rng) -> Vec<Vec<u8>>,
    /// Forms that a full run takes: all of some small kinds, and the largest.
    pub every: fn(Rng) -> Forms,
    /// A quick run takes one of them in so many.
    pub step: usize,
    /// A drawing by chance, of up to about so many nodes.
    pub drawing: fn(&mut Rng, usize) -> Drawing,
    /// Of eight forms by chance, so many are damaged.
    pub damaged: usize,
}

pub type Forms = Box<dyn Iterator<Item = Vec<u8>>>;

/// An operation, and the length of the work room that the C header names for it, where it takes some.
#[derive(Clone, Copy)]
pub struct Function {
    pub operation: &'static Operation,
    room: Option<usize>,
}

impl Function {
    pub fn new(operation: &'static Operation, rooms: &Rooms) -> Result<Self, String> {
        let room = if operation.parameters.contains(&Parameter::Room) {
            Some(rooms.of(operation.name)?)
        } else {
            None
        };
        Ok(Function { operation, room })
    }

    /// How many answer buffers it takes.
    fn answers(&self) -> usize {
        let answered = |parameter: &&Parameter| **parameter == Parameter::Answered;
        self.operation.parameters.iter().filter(answered).count()
    }

    /// What a call must give. Work room too short is refused before all else, an answer buffer too short after all else.
    pub fn due<'a>(&self, call: &Call, outcome: &'a Outcome) -> Due<'a> {
        if call.room < self.room {
            return Err(Refusal::Room.nowhere());
        }
        let answer = outcome.as_ref().map_err(|refused| *refused)?;
        let short = |(needed, length): (usize, &usize)| needed > *length;
        if answer.lengths().into_iter().zip(&call.answers).any(short) {
            return Err(Refusal::Room.nowhere());
        }
        Ok(answer)
    }

    /// The call with answer buffers and work room that are just long enough; where it is refused, the buffers have room
    /// for a header, which must not be written.
    pub fn exact(&self, arguments: Arguments, outcome: &Outcome) -> Call {
        let answers = outcome.as_ref().map(Answer::lengths);
        Call {
            arguments,
            answers: answers.unwrap_or_else(|_| vec![VERSION_2.header_bytes(); self.answers()]),
            room: self.room,
        }
    }

    /// The calls to make with these arguments: the exact one first, then with answer buffers of other lengths, and, where
    /// the function takes work room, with room that is longer, one short and empty.
    pub fn calls(&self, arguments: Arguments, outcome: &Outcome, rng: &mut Rng) -> Vec<Call> {
        let exact = self.exact(arguments, outcome);
        let lengths = match outcome {
            Ok(_) => around(&exact.answers, rng),
            Err(_) => {
                let lengths = (0..self.answers()).map(|_| rng.between(1, 80));
                vec![lengths.collect(), vec![0; self.answers()]]
            }
        };
        let rooms = match self.room {
            Some(n) => vec![n + rng.between(1, 40), n.saturating_sub(1), 0],
            None => vec![],
        };
        let mut calls = vec![exact];
        for answers in lengths {
            let exact = &calls[0];
            if calls.iter().all(|call| call.answers != answers) {
                calls.push(Call {
                    answers,
                    ..exact.clone()
                });
            }
        }
        for room in rooms {
            calls.push(Call {
                room: Some(room),
                ..calls[0].clone()
            });
        }
        calls
    }
}

/// Lengths for buffers whose answers have these: one longer, some longer, all empty, and each of them one short.
fn around(exact: &[usize], rng: &mut Rng) -> Vec<Vec<usize>> {
    let longer = |by: usize| exact.iter().map(|n| n + by).collect();
    let mut lengths = vec![longer(1), longer(rng.between(2, 40))];
    lengths.push(vec![0; exact.len()]);
    for buffer in (0..exact.len()).filter(|&buffer| exact[buffer] > 0) {
        let mut short = exact.to_vec();
        short[buffer] -= 1;
        lengths.push(short);
    }
    lengths
}
