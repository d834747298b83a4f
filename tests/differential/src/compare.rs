//! Makes one call to the port and compares all that can be seen of it with what is due.

use crate::call::{packed, written, Call, Due};
use crate::operation::{Function, Parameter};
use crate::port::{Port, Room, Word};
use std::fmt;
use std::ops::Range;

/// The least number of guard bytes on either side of a lent part.
const GUARD: usize = 32;

/// What the port did otherwise.
#[derive(Debug)]
pub struct Disagreement {
    pub place: Place,
    pub returned: Option<u64>,
    /// What each answer buffer held before the call, should have held after it, and did hold.
    pub answers: Vec<[Vec<u8>; 3]>,
}

/// Where it shows first.
#[derive(Debug, Clone, Copy, PartialEq, Eq)]
pub enum Place {
    /// The function did not return: its process ended.
    Ended,
    Returned,
    /// A byte of the answer: buffer and index.
    Answer(usize, usize),
    /// A byte of an answer buffer past the answer, or any on a refusal.
    Past(usize, usize),
    Input(usize),
    Guard,
    RoomGuard,
}

/// What no call may depend on.
#[derive(Debug, Clone, Copy)]
pub struct Salt {
    /// Changes where the lent parts begin, and the bytes around them, in answer buffers and in work room.
    pub number: usize,
    /// Whether all of the work room is filled with such bytes, or only a part.
    pub whole_room: bool,
}

/// Compares one call.
pub fn compare(
    port: &mut Port,
    function: &Function,
    call: &Call,
    due: Due,
    salt: Salt,
) -> Result<(), Disagreement> {
    let lent = Lent::new(function, call, salt);
    let mut after = lent.image.clone();
    let reply = port.call(function.operation.name, &lent.words, lent.room, &mut after);
    let image_due = lent.image_due(due);

    let place = match reply {
        None => Some(Place::Ended),
        Some(reply) if reply.returned != packed(due) => Some(Place::Returned),
        Some(reply) if reply.beside_room => Some(Place::RoomGuard),
        Some(_) if after == image_due => None,
        Some(_) => lent.first_difference(due, &image_due, &after),
    };
    let Some(place) = place else {
        return Ok(());
    };
    let images = [&lent.image, &image_due, &after];
    Err(Disagreement {
        place,
        returned: reply.map(|reply| reply.returned),
        answers: lent
            .answers
            .iter()
            .map(|range| images.map(|image| image[range.clone()].to_vec()))
            .collect(),
    })
}

/// All that is lent for one call but work room, as one run of bytes: each part between guards, and every byte that is no
/// input's told by its place.
struct Lent {
    image: Vec<u8>,
    words: Vec<Word>,
    inputs: Vec<Range<usize>>,
    answers: Vec<Range<usize>>,
    room: Room,
}

impl Lent {
    fn new(function: &Function, call: &Call, salt: Salt) -> Self {
        let mut lent = Lent {
            image: vec![],
            words: vec![],
            inputs: vec![],
            answers: vec![],
            room: Room::default(),
        };
        let mut numbers = call.arguments.numbers.iter();
        let mut inputs = call.arguments.inputs.iter();
        let mut answers = call.answers.iter();
        // Parts begin at odd addresses too.
        let guard = GUARD + salt.number % 8;
        let mut end = 0;
        let mut part = |words: &mut Vec<Word>, length: usize| {
            let start = end + guard;
            end = start + length;
            words.extend([Word::Place(start), Word::Number(length as u64)]);
            start..end
        };
        for parameter in function.operation.parameters {
            let words = &mut lent.words;
            match parameter {
                Parameter::Number => {
                    let number = *numbers.next().expect("a number for each such parameter");
                    words.push(Word::Number(number.into()));
                }
                Parameter::Input => {
                    let input = inputs.next().expect("an input for each such parameter");
                    lent.inputs.push(part(words, input.len()));
                }
                Parameter::Answered => {
                    let length = *answers.next().expect("a length for each such parameter");
                    lent.answers.push(part(words, length));
                }
                Parameter::Room => {
                    let length = call.room.expect("a length for the work room");
                    words.extend([Word::Room(salt.number % 8), Word::Number(length as u64)]);
                    lent.room = Room {
                        length,
                        fill: room_fill(salt.number),
                        whole: salt.whole_room,
                    };
                }
            }
        }
        let filling = |i: usize| (i * 151 + (i >> 8) * 29 + salt.number * 83) as u8;
        lent.image = (0..end + guard).map(filling).collect();
        for (range, input) in lent.inputs.iter().zip(&call.arguments.inputs) {
            lent.image[range.clone()].copy_from_slice(input);
        }
        lent
    }

    /// The bytes as they must be after the call.
    fn image_due(&self, due: Due) -> Vec<u8> {
        let mut image = self.image.clone();
        for (buffer, range) in self.answers.iter().enumerate() {
            let answer = written(due, buffer);
            image[range.start..range.start + answer.len()].copy_from_slice(answer);
        }
        image
    }

    fn first_difference(&self, due: Due, image_due: &[u8], after: &[u8]) -> Option<Place> {
        let at = image_due.iter().zip(after).position(|(a, b)| a != b)?;
        let within = |ranges: &[Range<usize>]| ranges.iter().position(|range| range.contains(&at));
        if let Some(buffer) = within(&self.answers) {
            let index = at - self.answers[buffer].start;
            return Some(if index < written(due, buffer).len() {
                Place::Answer(buffer, index)
            } else {
                Place::Past(buffer, index)
            });
        }
        Some(within(&self.inputs).map_or(Place::Guard, Place::Input))
    }
}

/// What work room is filled with before a call, by turns: some byte, two small 4-byte numbers, which a function might
/// take for its own, and zeros.
fn room_fill(salt: usize) -> u64 {
    match salt % 4 {
        0 | 1 => u64::from_le_bytes([(salt * 83 / 2) as u8; 8]),
        2 => (salt % 7) as u64 | ((salt % 5) as u64) << 32,
        _ => 0,
    }
}

impl fmt::Display for Place {
    fn fmt(&self, f: &mut fmt::Formatter<'_>) -> fmt::Result {
        match self {
            Place::Ended => write!(f, "not returning: its process ended"),
            Place::Returned => write!(f, "the returned number"),
            Place::Answer(buffer, at) => write!(f, "byte {at} of answer {buffer}"),
            Place::Past(buffer, at) => {
                write!(f, "byte {at} of answer buffer {buffer}, which was to stay")
            }
            Place::Input(input) => write!(f, "input {input}, which was written to"),
            Place::Guard => write!(f, "bytes beside what was lent, which were written to"),
            Place::RoomGuard => write!(f, "bytes beside the work room, which were written to"),
        }
    }
}
