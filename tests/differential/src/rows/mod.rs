//! The table of exported functions, by groups.

mod building;
pub mod choice;
mod deleting;
pub mod many;
mod merging;
pub mod once_fed;
pub mod pricing;
mod reading;
pub mod spidering;

use crate::operation::{Function, Group};
use crate::rooms::Rooms;

/// The groups of the port's functions that a recorded list has, in the order in which a run tries them.
pub const GROUPS: &[Group] = &[
    reading::GROUP,
    building::GROUP,
    deleting::GROUP,
    merging::GROUP,
    choice::GROUP,
    once_fed::GROUP,
    spidering::GROUP,
];

/// Those that are in no recorded list: of archives above the port, and calls with steps. A run tries them next.
pub const UNRECORDED: &[Group] = &[pricing::GROUP, many::GROUP];

/// A group's functions.
pub fn functions(group: &Group, rooms: &Rooms) -> Result<Vec<Function>, String> {
    let rows = group.operations.iter();
    rows.map(|operation| Function::new(operation, rooms))
        .collect()
}
