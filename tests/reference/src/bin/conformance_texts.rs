//! Prints what docs/CONFORMANCE.md says of `conformance_texts` for the texts on
//! standard input. With the argument `texts` it writes such texts instead.

use reference::conformance::texts;
use reference::program::print_or_write;
use std::io;
use std::process::ExitCode;

fn main() -> io::Result<ExitCode> {
    print_or_write(texts::lines, "texts", texts::input)
}
