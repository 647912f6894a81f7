//! The river's record as a text that may be damaged before it is read.

use crate::record::{self, CELL_BYTES};
use crate::refusal;
use crate::river::River;

/// Room for the text, more than a record of nine cells.
pub const TEXT: usize = 8_600;

/// Room, and how much of it is text.
#[derive(Clone)]
pub struct Text {
    pub bytes: [u8; TEXT],
    pub length: usize,
}

impl Text {
    /// The record of a river; no text if the river is refused.
    pub fn of(river: &River) -> Self {
        let mut bytes = [0; TEXT];
        let mut work = [0; TEXT];
        let length = match record::write(river, &mut bytes, &mut work) {
            refusal::NONE => river.cells as usize * CELL_BYTES,
            _ => 0,
        };
        Text { bytes, length }
    }

    pub fn lent(&self) -> &[u8] {
        &self.bytes[..self.length]
    }
}
