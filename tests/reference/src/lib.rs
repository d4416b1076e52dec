//! The SISA trim processor of paper 01, the SISA reference sheet (004) and
//! requests L1, L2, L4 to L9 and L11 to L14 of paper 02, written from those papers
//! alone, to be compared with another build.
//!
//! Sentences in quotation marks are paper 01's unless "Sheet" or a request is
//! named before them.
#![forbid(unsafe_code)]

pub mod assemble;
pub mod back;
pub mod conformance;
pub mod control;
pub mod instruction;
pub mod journal;
pub mod listing;
pub mod load;
pub mod machine;
pub mod masks;
mod number;
pub mod page;
pub mod program;
pub mod raise;
pub mod report;
pub mod run;
pub mod save;
pub mod set;
pub mod sheet;
pub mod ticks;
pub mod usage;
pub mod window;
