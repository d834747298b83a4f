//! The port held beside the original: the same calls to both, and every answer byte compared.

pub mod arguments;
pub mod call;
pub mod cases;
pub mod classes;
pub mod compare;
pub mod convert;
pub mod form;
pub mod operation;
pub mod place;
pub mod port;
pub mod record;
pub mod rng;
pub mod rooms;
pub mod rows;
pub mod run;
pub mod show;
pub mod shrink;
pub mod steps;
