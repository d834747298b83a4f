//! What calls are lent beside their arguments, and their answers taken apart.

use crate::{Refusal, Refused};
use std::cell::RefCell;

/// The most bytes that a stored form has: `OHG_FORM_BYTES`.
const FORM_BYTES: usize = 655_385;

/// The most work room that a function asks for: `OHG_ROOM_CYCLE_BREAKING_NODES`.
const ROOM_BYTES: usize = 1_390_016;

/// A buffer that holds any answered graph, and work room that is enough for any call.
pub struct Lent {
    pub form: Vec<u8>,
    pub room: Vec<u8>,
}

thread_local! {
    /// One for each thread, made at its first call and used again by all that follow. What it holds between calls means
    /// nothing, so it is no part of a graph, and as a parameter it would only stand in every call; a thread's own needs
    /// no lock. Calls do not nest, so it is never lent twice. Memory that is asked for as zeros is not touched until it
    /// is used, so that a small drawing does not pay for the largest.
    static LENT: RefCell<Lent> = RefCell::new(Lent {
        form: vec![0; FORM_BYTES],
        room: vec![0; ROOM_BYTES],
    });
}

/// Runs a call with what this thread has to lend.
pub fn with<T>(call: impl FnOnce(&mut Lent) -> T) -> T {
    LENT.with_borrow_mut(call)
}

/// The two numbers of an answer, or the refusal.
pub fn answered(packed: u64) -> Result<(usize, u32), Refused> {
    match (packed & 0xFF) as u8 {
        0 => Ok(((packed >> 8 & 0xFF_FFFF) as usize, (packed >> 32) as u32)),
        code => Err(Refused {
            by: Refusal::of(code),
            place: (packed >> 32) as usize,
        }),
    }
}

/// The index of the step that a call with steps refused.
pub fn step_of(packed: u64) -> usize {
    (packed >> 8 & 0xFF_FFFF) as usize
}
