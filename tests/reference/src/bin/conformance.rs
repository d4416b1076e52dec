//! Prints what docs/CONFORMANCE.md says of `conformance`.

use reference::conformance::lines;
use reference::program::print;

fn main() -> std::io::Result<()> {
    print(&lines())
}
