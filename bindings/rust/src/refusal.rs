use std::error::Error;
use std::fmt;

/// Why a call was refused. The numbers are those of `ohg.h` and `price.h`; where several hold, `docs/INTERFACE.md` says which is given.
#[derive(Debug, Clone, Copy, PartialEq, Eq, Hash)]
#[non_exhaustive]
pub enum Refusal {
    /// Fewer than 15 bytes.
    NoHeader = 1,
    /// The first three bytes are not `OHG`.
    NoMark = 2,
    /// The version is neither 1 nor 2.
    OtherVersion = 3,
    /// A count in the header, or the sum of the ports, is above its version's limit.
    OverLimit = 4,
    /// The length is not what the counts call for.
    OtherLength = 5,
    /// A stored node id is not below the node count.
    ForeignId = 6,
    /// A form of version 2 whose graph fits version 1: one graph has one form.
    OtherForm = 13,
    /// A step has an unknown kind, or is cut short. [`Builder`](crate::Builder) gives it for a list that is too long alone.
    BadStep = 12,
    /// An id in the call is not below its count.
    BadList = 7,
    /// The graph has a pending pair, and the operation needs none.
    PendingPair = 8,
    /// Two nodes that pending pairs join have different labels.
    LabelsDiffer = 11,
    /// An edge's label is outside of the catalogue of parts, and it is no spider. The first edge at fault decides.
    UnknownKind = 14,
    /// An edge has other numbers of sources and targets than its kind. The first edge at fault decides.
    OtherPorts = 15,
    /// Some directed cycle has only kept nodes.
    KeptCycle = 16,
    /// A range has more than 1,000 drawings, or one that is longer than 4 bytes can tell.
    NoSlice = 17,
    /// The result would pass a limit of version 2.
    ResultLimit = 9,
    /// A buffer or work room was too short. This crate lends enough for the library that it belongs to.
    ShortBuffer = 10,
}

impl Refusal {
    const ALL: [Refusal; 17] = [
        Refusal::NoHeader,
        Refusal::NoMark,
        Refusal::OtherVersion,
        Refusal::OverLimit,
        Refusal::OtherLength,
        Refusal::ForeignId,
        Refusal::OtherForm,
        Refusal::BadStep,
        Refusal::BadList,
        Refusal::PendingPair,
        Refusal::LabelsDiffer,
        Refusal::UnknownKind,
        Refusal::OtherPorts,
        Refusal::KeptCycle,
        Refusal::NoSlice,
        Refusal::ResultLimit,
        Refusal::ShortBuffer,
    ];

    /// The refusal's number, 1 to 17.
    pub fn number(self) -> u8 {
        self as u8
    }

    /// The refusal of a number.
    pub(crate) fn of(number: u8) -> Refusal {
        let known = Refusal::ALL.into_iter().find(|r| r.number() == number);
        known.expect("the library refuses by no other number")
    }

    /// What was wrong, and what to do.
    fn advice(self) -> &'static str {
        match self {
            Refusal::NoHeader => {
                "the bytes end within the header; check that this is a stored form, and whole"
            }
            Refusal::NoMark => {
                "the first three bytes are not `OHG`; check that this is a stored form"
            }
            Refusal::OtherVersion => {
                "the version is neither 1 nor 2; use the library of the newer tool that wrote it"
            }
            Refusal::OverLimit => "a count is above its limit; split the drawing",
            Refusal::OtherLength => {
                "the bytes end too early, or are to end here; get the file again, whole"
            }
            Refusal::ForeignId => {
                "a node id is not below the node count; get the file again, undamaged"
            }
            Refusal::OtherForm => {
                "a form of version 2 whose graph fits version 1; write it by version 1"
            }
            Refusal::BadStep => {
                "a step has an unknown kind or is cut short; send shorter lists"
            }
            Refusal::BadList => {
                "an id in the call is not below its count; check it against the graph's sizes"
            }
            Refusal::PendingPair => {
                "the graph has a pending pair; merge joined nodes first, by `quotient`"
            }
            Refusal::LabelsDiffer => {
                "nodes that pairs join have different labels; give them one, or delete the pair's nodes"
            }
            Refusal::UnknownKind => {
                "an edge's label is outside of the catalogue; give it a kind, 1 to 12"
            }
            Refusal::OtherPorts => {
                "an edge has other numbers of sources and targets than its kind; mend its ports"
            }
            Refusal::KeptCycle => {
                "some directed cycle has only kept nodes; free one of these wires, or redraw the loop"
            }
            Refusal::NoSlice => {
                "a range has more than 1,000 drawings, or one of more bytes than can be told; price it in parts"
            }
            Refusal::ResultLimit => "the result would pass a limit; split the drawing",
            Refusal::ShortBuffer => {
                "a buffer or work room is too short; link the archives that belong to this crate"
            }
        }
    }
}

/// A refused call: why, and where.
#[derive(Debug, Clone, Copy, PartialEq, Eq, Hash)]
pub struct Refused {
    /// Why the call was refused.
    pub by: Refusal,
    /// Where, as `docs/INTERFACE.md` says for each refusal: by 1 to 6 a byte of the stored form, by 7 an entry of a list,
    /// both counted from 0; 0 for an id given singly, and by all others.
    pub place: usize,
}

impl fmt::Display for Refused {
    /// The number, the place where there is one, what was wrong, and what to do.
    fn fmt(&self, f: &mut fmt::Formatter<'_>) -> fmt::Result {
        let (number, place, advice) = (self.by.number(), self.place, self.by.advice());
        match number {
            1..=6 => write!(f, "{number} at byte {place}: {advice}"),
            7 => write!(f, "{number} at entry {place}: {advice}"),
            _ => write!(f, "{number}: {advice}"),
        }
    }
}

impl Error for Refused {}

/// Refused steps of a [`Builder`](crate::Builder): why, at which step, and where. `?` makes a [`Refused`] of it, which says
/// all but the step.
#[derive(Debug, Clone, Copy, PartialEq, Eq, Hash)]
pub struct RefusedStep {
    /// Why the call was refused.
    pub by: Refusal,
    /// Where, as in [`Refused`]; by 7 an entry of the step's list.
    pub place: usize,
    /// The refused step's index from 0; one above 16,777,215 is given as that. None where a step is not what was refused.
    pub step: Option<usize>,
}

impl From<RefusedStep> for Refused {
    fn from(refused: RefusedStep) -> Refused {
        let RefusedStep { by, place, .. } = refused;
        Refused { by, place }
    }
}

impl fmt::Display for RefusedStep {
    /// The number, the step and the place where there are such, what was wrong, and what to do.
    fn fmt(&self, f: &mut fmt::Formatter<'_>) -> fmt::Result {
        let Some(step) = self.step else {
            return Refused::from(*self).fmt(f);
        };
        let (number, place, advice) = (self.by.number(), self.place, self.by.advice());
        match number {
            7 => write!(f, "{number} at step {step}, entry {place}: {advice}"),
            _ => write!(f, "{number} at step {step}: {advice}"),
        }
    }
}

impl Error for RefusedStep {}
