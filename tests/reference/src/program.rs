//! Standard input and output of the programs below `bin`.

use std::env;
use std::io::{self, Read, Write};
use std::process::ExitCode;

/// All of standard input.
pub fn input() -> io::Result<Vec<u8>> {
    let mut input = Vec::new();
    io::stdin().lock().read_to_end(&mut input)?;
    Ok(input)
}

/// Writes the bytes to standard output.
pub fn write(bytes: &[u8]) -> io::Result<()> {
    let mut out = io::stdout().lock();
    out.write_all(bytes)?;
    out.flush()
}

/// Prints the lines, each ended by a line feed.
pub fn print(lines: &[String]) -> io::Result<()> {
    let mut text = lines.join("\n");
    if !lines.is_empty() {
        text.push('\n');
    }
    write(text.as_bytes())
}

/// Prints the lines for standard input. With the one argument `word` it writes
/// such an input instead.
pub fn print_or_write(
    lines: fn(&[u8]) -> Vec<String>,
    word: &str,
    made: fn() -> Vec<u8>,
) -> io::Result<ExitCode> {
    let arguments: Vec<_> = env::args_os().skip(1).collect();
    match &arguments[..] {
        [] => print(&lines(&input()?))?,
        [one] if one == word => write(&made())?,
        _ => {
            eprintln!("no argument, or `{word}`");
            return Ok(ExitCode::FAILURE);
        }
    }
    Ok(ExitCode::SUCCESS)
}
