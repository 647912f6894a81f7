//! Reads a record from the input and writes its bank page, or its number and a line
//! feed.

use reference::input::answer;
use reference::page::{write, ROW_BYTES};
use std::io;

fn main() -> io::Result<()> {
    answer(|river| {
        let mut output = vec![0; river.cells as usize * ROW_BYTES];
        write(river, &mut output);
        output
    })
}
