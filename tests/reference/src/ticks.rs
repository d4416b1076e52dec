//! How long a step takes on the slower board, as document 02's request L9 says.

use crate::instruction::{read, Kind};

/// "The multicycle board takes 3 ticks an instruction, and 4 for LD, ST, LDB and
/// STB." An unassigned word, on which there is no step, takes none.
pub fn ticks(w: u16) -> u64 {
    match read(w).map(|x| x.kind) {
        None => 0,
        Some(Kind::Ld | Kind::St | Kind::Ldb | Kind::Stb) => 4,
        Some(_) => 3,
    }
}
