//! A trim's text on standard input, the trim file on standard output. Where the
//! text is refused: nothing there, and one line on standard error.

use reference::assemble::{refused_line, trim};
use reference::program::{input, write};
use std::io;
use std::process::ExitCode;

fn main() -> io::Result<ExitCode> {
    match trim(&input()?) {
        Ok(file) => {
            write(&file)?;
            Ok(ExitCode::SUCCESS)
        }
        Err(refused) => {
            eprintln!("{}", refused_line(refused));
            Ok(ExitCode::FAILURE)
        }
    }
}
