//! The proved library compared with the reference program: call by call, byte by byte of both
//! windows, report by report, with the ledger of each list recomputed from the library's answers; and
//! the wired domain call by call and register by register.

#![forbid(unsafe_code)]

pub mod aplic;
pub mod comparison;
pub mod run;
pub mod shrink;
pub mod side;

pub use comparison::{Byte, Comparison, Difference};
pub use run::{run, Found, Options, Outcome, Subject};
pub use shrink::shrink;
pub use side::{Library, Reference, Side};
