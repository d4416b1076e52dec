//! Prints what docs/CONFORMANCE.md says of `panellist` for the trim file on
//! standard input. With the argument `file` it writes such a file instead.

use reference::listing::{lines, sample};
use reference::program::print_or_write;
use std::io;
use std::process::ExitCode;

fn main() -> io::Result<ExitCode> {
    print_or_write(lines, "file", sample)
}
