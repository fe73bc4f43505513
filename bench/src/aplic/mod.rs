//! The wired domain: the proved library against a plain program of the same job.

mod check;
mod measure;
mod plain;
mod program;
mod rows;

pub use check::check;
pub use measure::{compare, BOTH};
pub use rows::rows;
