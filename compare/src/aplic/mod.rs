//! The wired domain: the library compared with the reference's tables of separate sources and harts.

pub mod comparison;
pub mod shrink;
pub mod side;

pub use comparison::{Comparison, Difference};
pub use side::{Library, Side};
