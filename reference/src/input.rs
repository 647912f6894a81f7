//! What the programs that take a record do with their input.

use crate::record::read;
use crate::refusal;
use crate::river::River;
use std::io::{self, Read, Write};

/// Reads a record from the input and writes what `text_of` makes of its river, or its
/// number and a line feed.
pub fn answer(text_of: fn(&River) -> Vec<u8>) -> io::Result<()> {
    let mut text = Vec::new();
    io::stdin().lock().read_to_end(&mut text)?;
    let (number, river) = read(&text);
    if number != refusal::NONE {
        return writeln!(io::stdout(), "{number}");
    }
    io::stdout().write_all(&text_of(&river))
}
