//! An independent reference for the Yasmurekh IOMMU and its wired domain, written from the documents
//! alone.
//!
//! "01" is the scope paper, "02" the paper of change requests, "003" the IOMMU data structures,
//! "000" the IOMMU chapter of the Advanced Interrupt Architecture, "002" its chapter on the APLIC,
//! "Priv" the RISC-V Privileged specification; D1, D2, .. are the entries of docs/DECISIONS.md.

#![forbid(unsafe_code)]

pub mod aplic;
pub mod check;
pub mod clauses;
pub mod coverage;
pub mod damage;
pub mod device;
pub mod file;
pub mod generate;
pub mod iommu;
pub mod layout;
pub mod ledger;
pub mod many;
pub mod many_check;
pub mod mark;
pub mod memory;
pub mod message;
pub mod paging;
pub mod placement;
pub mod process;
pub mod random;
pub mod scheme;
pub mod scheme_check;
pub mod table_check;
pub mod tables;
pub mod task;
pub mod text;
pub mod types;
pub mod window_check;
pub mod windows;
pub mod world;

pub use iommu::{report, request, take, take_many};
pub use memory::{Memory, Window};
pub use types::{Access, Answer, Pair, Report, Request, Settings, Stage};
