//! The plays and prints of docs/CONFORMANCE.md.
//!
//! Sentences in quotation marks are that page's.

mod backs;
mod boards;
mod calls;
mod files;
mod host;
mod keys;
mod knobs;
mod locks;
mod pages;
mod runs;
mod saves;
mod tables;
pub mod texts;

pub use boards::storing_file;
pub use calls::lines;
pub use files::file;
pub use keys::key_file;
pub use knobs::knob_file;
pub use locks::{locked_file, range};
pub use pages::{trim_file, trims};
pub use tables::{file as table_file, lines as table_lines, table};

use std::fmt;

/// "Number k of case c"
pub fn number(c: u64, k: u64) -> u64 {
    let t = ((c * 65_536 + k) * 2_654_435_761 + 97) % 4_294_967_296;
    let u = t ^ (t / 65_536);
    u * 73_244_475 % 4_294_967_296 / 65_536
}

/// Call i of case c, whose numbers are from q on.
#[derive(Clone, Copy)]
struct Call {
    c: u64,
    i: u64,
    q: u64,
}

impl Call {
    /// "With q = 5,000 + 16·i"
    fn of_case(c: u64, i: u64) -> Call {
        let q = 5_000 + 16 * i;
        Call { c, i, q }
    }

    /// number(c, q + k)
    fn number(self, k: u64) -> u64 {
        number(self.c, self.q + k)
    }
}

/// "c i"
impl fmt::Display for Call {
    fn fmt(&self, f: &mut fmt::Formatter) -> fmt::Result {
        write!(f, "{} {}", self.c, self.i)
    }
}

/// "A digest is a 32-bit number, 0 at the start"
#[derive(Default)]
pub struct Digest(u64);

impl Digest {
    /// "taking in x (under 2^32) makes h into (h · 16,777,619 + x + 1) mod
    /// 2^32"
    pub fn take(&mut self, x: u64) {
        self.0 = (self.0 * 16_777_619 + x + 1) % 4_294_967_296;
    }

    /// Takes in of each in order "the value mod 2^32, then the value / 2^32".
    pub fn take_halves(&mut self, all: &[u64]) {
        for x in all {
            self.take(x % 4_294_967_296);
            self.take(x / 4_294_967_296);
        }
    }

    /// Takes in each in order.
    fn take_all<T: Copy + Into<u64>>(&mut self, all: &[T]) {
        all.iter().for_each(|&x| self.take(x.into()));
    }

    pub fn value(&self) -> u64 {
        self.0
    }
}
