//! Reads a record from the input and writes it back, or its number and a line feed.

use reference::input::answer;
use reference::record::{write, CELL_BYTES};
use std::io;

fn main() -> io::Result<()> {
    answer(|river| {
        let length = river.cells as usize * CELL_BYTES;
        let (mut output, mut work) = (vec![0; length], vec![0; length]);
        write(river, &mut output, &mut work);
        output
    })
}
