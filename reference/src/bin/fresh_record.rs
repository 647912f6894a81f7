//! Prints the record of a fresh river of one cell.

use reference::record::{write, CELL_BYTES};
use reference::River;
use std::io::{self, Write};

fn main() -> io::Result<()> {
    let (mut output, mut work) = ([0; CELL_BYTES], [0; CELL_BYTES]);
    let (_, river) = River::fresh(1);
    write(&river, &mut output, &mut work);
    io::stdout().write_all(&output)
}
