//! The original `open-hypergraphs`, its files compiled unchanged, as the judge of what is right.
//!
//! The module tree is written by `build.rs` and stands for the original's `lib.rs`, `lax/mod.rs` and
//! `finite_function/mod.rs`. Each module under `shims` stands for a file that is not at hand; it holds what the
//! original's files name and no more. What is never run is left out by [`left_out`]: an imitation
//! would only look like the original.

// `arrow.rs` names the crate `num_traits`; this crate answers to that name too.
extern crate self as num_traits;

include!(concat!(env!("OUT_DIR"), "/original.rs"));

#[path = "shims/array.rs"]
pub mod array;
#[path = "shims/category.rs"]
pub mod category;
#[path = "shims/indexed_coproduct.rs"]
pub mod indexed_coproduct;
#[path = "shims/num_traits.rs"]
mod numbers;
#[path = "shims/semifinite.rs"]
pub mod semifinite;
#[path = "shims/strict.rs"]
pub mod strict;

pub use numbers::{One, Zero};

/// Stands for a body that no call from `src/lax` reaches.
fn left_out<T>() -> T {
    unimplemented!("left out of the shims: nothing that is tested comes here")
}
