//! Tests of the reference against papers 01 and 02 and the sheet.
#![allow(clippy::unusual_byte_groupings, clippy::identity_op)] // fields as the sheet groups them

mod assembly;
mod backs;
mod board;
mod boards;
mod conformance;
mod divisors;
mod engines;
mod extension;
mod journals;
mod keys;
mod lines;
mod listing;
mod locked;
mod marked;
mod masks;
mod pages;
mod printed;
#[path = "../shared/random.rs"]
mod random;
mod refusals;
#[path = "../shared/registers.rs"]
mod registers;
mod rules;
mod runs;
mod saves;
mod sheets;
mod slips;
mod tables;
mod texts;
mod ticks;
mod trails;
mod usage;
mod words;
