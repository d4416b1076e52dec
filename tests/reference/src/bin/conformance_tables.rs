//! Prints what docs/CONFORMANCE.md says of `conformance_tables`.

use reference::conformance::table_lines;
use reference::program::print;

fn main() -> std::io::Result<()> {
    print(&table_lines())
}
