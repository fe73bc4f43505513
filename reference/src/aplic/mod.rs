//! One supervisor leaf domain of an APLIC (02, Req 07 and Req 08), as a table of separate sources and
//! one of harts.
//!
//! "002" is the chapter on the APLIC of the Advanced Interrupt Architecture.

pub mod check;
pub mod coverage;
pub mod direct_check;
pub mod domain;
pub mod generate;
pub mod hart;
pub mod hart_mark;
pub mod hole;
pub mod mark;
pub mod register;
pub mod source;
pub mod text;

pub use coverage::Coverage;
pub use domain::{Answer, Call, Domain, Message};
pub use generate::{list, List};
pub use hart::{Hart, HartRegister};
pub use register::{Mask, Number, Register};
pub use source::{Delivery, Mode, Source, Target};
