//! The record: 35 lines of 27 bytes per cell, 18 amounts and then 17 carries.
//! A text is a record exactly when a write gives it of some river in bounds, so
//! reading accepts one form of each number only.

use crate::refusal;
use crate::river::{River, BATCH, CELLS};
use crate::rows::PROCESSES;
use crate::substances::{HIGHEST, LOWEST, SUBSTANCES};

/// Bytes of a line: cell, blank, line, blank, value, line feed.
const LINE: usize = 27;
/// Lines of a cell.
const LINES: usize = SUBSTANCES + PROCESSES;
/// Bytes of a cell's lines.
pub const CELL_BYTES: usize = LINE * LINES;
/// Columns of a value.
const COLUMNS: usize = 20;

/// Two-digit numbers, for writing digits in pairs.
pub(crate) const PAIRS: [[u8; 2]; 100] = {
    let mut pairs = [[b'0'; 2]; 100];
    let mut i = 0;
    while i < 100 {
        pairs[i] = [b'0' + (i / 10) as u8, b'0' + (i % 10) as u8];
        i += 1;
    }
    pairs
};

/// Writes the river's record to the output and to the start of the work area.
/// Bytes past the record stay in both; on a refusal all bytes stay.
pub fn write(river: &River, output: &mut [u8], work: &mut [u8]) -> u32 {
    if river.check() != refusal::NONE {
        return refusal::RIVER;
    }
    let cells = river.cells as usize;
    let length = cells * CELL_BYTES;
    if output.len() < length || work.len() < length {
        return refusal::BUFFER;
    }
    let (lines, _) = output[..length].as_chunks_mut::<LINE>();
    for (cell, lines) in lines.chunks_exact_mut(LINES).enumerate() {
        let amounts = &river.amounts[cell * SUBSTANCES..][..SUBSTANCES];
        let carries = &river.carries[cell * PROCESSES..][..PROCESSES];
        let values = amounts.iter().copied().chain(carries.iter().map(|&carry| carry.into()));
        for ((number, line), value) in (1..).zip(lines).zip(values) {
            write_line(line, cell + 1, number, value);
        }
    }
    work[..length].copy_from_slice(&output[..length]);
    refusal::NONE
}

/// Writes one line of the record in place.
fn write_line(line: &mut [u8; LINE], cell: usize, number: usize, value: i64) {
    line[..6].copy_from_slice(&heading(cell, number));
    line[6..LINE - 1].fill(b' ');
    line[LINE - 1] = b'\n';
    let mut rest = value.unsigned_abs();
    let mut column = LINE - 1;
    while rest >= 100 {
        column -= 2;
        line[column..column + 2].copy_from_slice(&PAIRS[(rest % 100) as usize]);
        rest /= 100;
    }
    if rest >= 10 {
        column -= 2;
        line[column..column + 2].copy_from_slice(&PAIRS[rest as usize]);
    } else {
        column -= 1;
        line[column] = b'0' + rest as u8;
    }
    if value < 0 {
        line[column - 1] = b'-';
    }
}

/// What stands before the value: cell and line in two columns, each with a blank.
fn heading(cell: usize, number: usize) -> [u8; 6] {
    let two = |n: usize| match n {
        0..=9 => [b' ', b'0' + n as u8],
        _ => PAIRS[n],
    };
    let ([c1, c2], [n1, n2]) = (two(cell), two(number));
    [c1, c2, b' ', n1, n2, b' ']
}

/// The river a record tells of; a river of 0 cells if the text is no record.
pub fn read(text: &[u8]) -> (u32, River) {
    let (_, none) = River::fresh(0);
    let Some(cells) = cells_of(text) else { return (refusal::TEXT, none) };
    let mut river = River { cells: cells as u32, ..none };
    let sound = scan(text, |cell, line, value| {
        if line < SUBSTANCES {
            river.amounts[cell * SUBSTANCES + line] = value;
        } else {
            // In bounds, a carry is below a million.
            river.carries[cell * PROCESSES + line - SUBSTANCES] = value as u32;
        }
    });
    if sound {
        (refusal::NONE, river)
    } else {
        (refusal::TEXT, River::fresh(0).1)
    }
}

/// The part of a record that holds the lines of one cell; empty if refused.
pub fn lines(text: &[u8], cell: u32) -> &[u8] {
    match lines_number(text, cell) {
        refusal::NONE => &text[(cell as usize - 1) * CELL_BYTES..][..CELL_BYTES],
        _ => &[],
    }
}

/// The number of [`lines`] for the same arguments: 11 before 5, or 0.
pub fn lines_number(text: &[u8], cell: u32) -> u32 {
    match cells_of(text) {
        Some(cells) if scan(text, |_, _, _| ()) => {
            if (1..=cells as u32).contains(&cell) {
                refusal::NONE
            } else {
                refusal::PLACE
            }
        }
        _ => refusal::TEXT,
    }
}

/// How many cells a text of this length is a record of, if of any.
fn cells_of(text: &[u8]) -> Option<usize> {
    let cells = text.len() / CELL_BYTES;
    ((1..=CELLS).contains(&cells) && text.len() == cells * CELL_BYTES).then_some(cells)
}

/// Goes through the lines of a text of whole cells and hands on each value with
/// its cell and line, counted from 0, until one is not as a write gives it.
fn scan(text: &[u8], mut hand_on: impl FnMut(usize, usize, i64)) -> bool {
    let (all, _) = text.as_chunks::<LINE>();
    all.chunks_exact(LINES).enumerate().all(|(cell, lines)| {
        lines.iter().enumerate().all(|(number, line)| {
            let (low, high) = bounds(number);
            match parsed(line, &heading(cell + 1, number + 1)) {
                Some(value) if (low..=high).contains(&value) => {
                    hand_on(cell, number, value);
                    true
                }
                _ => false,
            }
        })
    })
}

/// The bounds of the value in a line, counted from 0.
fn bounds(line: usize) -> (i64, i64) {
    if line < SUBSTANCES {
        (LOWEST[line], HIGHEST[line])
    } else {
        (0, i64::from(BATCH) - 1)
    }
}

/// The value of a line that has this heading and an exactly written number.
fn parsed(line: &[u8; LINE], heading: &[u8; 6]) -> Option<i64> {
    if line[..6] != heading[..] || line[LINE - 1] != b'\n' {
        return None;
    }
    let field = &line[6..6 + COLUMNS];
    let start = field.iter().position(|&byte| byte != b' ')?;
    let (negative, digits) = match &field[start..] {
        [b'-', digits @ ..] => (true, digits),
        digits => (false, digits),
    };
    let leading_zero = digits.first() == Some(&b'0') && (negative || digits.len() > 1);
    // 19 digits fit in 64 bits unsigned; 20 are beyond every bound.
    if digits.is_empty() || digits.len() == COLUMNS || leading_zero {
        return None;
    }
    let mut value = 0;
    for byte in digits {
        let digit = byte.wrapping_sub(b'0');
        if digit > 9 {
            return None;
        }
        value = value * 10 + u64::from(digit);
    }
    let value = i64::try_from(value).ok()?;
    Some(if negative { -value } else { value })
}
