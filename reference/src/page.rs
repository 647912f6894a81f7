//! The bank page: a row of 64 characters and a line feed per cell, with the cell, its
//! letter and six levels in g/m³ with three decimals, rounded down.

use crate::record::PAIRS;
use crate::refusal;
use crate::river::{letter_of, River};
use crate::substances::*;

/// Bytes of a row: cell and letter in two columns each, six levels, line feed.
pub const ROW_BYTES: usize = 65;
/// Columns of a level.
const COLUMNS: usize = 10;

/// Two-digit numbers with a blank for a first digit of zero.
const JUSTIFIED: [[u8; 2]; 100] = {
    let mut pairs = PAIRS;
    let mut i = 0;
    while i < 10 {
        pairs[i][0] = b' ';
        i += 1;
    }
    pairs
};

/// Writes the river's page to the output. Bytes past the page stay; on a refusal all
/// bytes stay.
pub fn write(river: &River, output: &mut [u8]) -> u32 {
    if river.check() != refusal::NONE {
        return refusal::RIVER;
    }
    let length = river.cells as usize * ROW_BYTES;
    if output.len() < length {
        return refusal::PAGE;
    }
    let (rows, _) = output[..length].as_chunks_mut();
    let (cells, _) = river.amounts.as_chunks();
    for ((cell, row), amounts) in (1..).zip(rows).zip(cells) {
        write_row(row, cell, amounts);
    }
    refusal::NONE
}

/// Writes the row of a cell in place.
#[inline]
fn write_row(row: &mut [u8; ROW_BYTES], cell: u8, amounts: &[i64; SUBSTANCES]) {
    let levels = levels(amounts);
    let [_, ammonium, _, _, _, oxygen] = levels;
    *row = [b' '; ROW_BYTES];
    row[1] = b'0' + cell;
    row[3] = letter_of(oxygen, ammonium);
    row[ROW_BYTES - 1] = b'\n';
    let (columns, _) = row[4..].as_chunks_mut();
    for (columns, level) in columns.iter_mut().zip(levels) {
        write_level(columns, level);
    }
}

/// The levels of a row, in µg. Those of amounts in bounds fit in 32 bits.
#[inline]
fn levels(amounts: &[i64; SUBSTANCES]) -> [u32; 6] {
    let level = |substance: usize, weight: i64| (amounts[substance] as u64 / weight as u64) as u32;
    [
        level(SS, 1),
        level(NH4, W_N),
        level(NO2, W_N),
        level(NO3, W_N),
        level(HPO4, W_P),
        level(O2, W_O),
    ]
}

/// Writes a level in g/m³ to blank columns: up to four digits, a point, three digits.
#[inline]
fn write_level(columns: &mut [u8; COLUMNS], level: u32) {
    let grams = level / 1_000_000;
    let thousandths = (level / 1_000 - 1_000 * grams) as usize;
    let grams = grams as usize;
    if grams < 100 {
        columns[4..6].copy_from_slice(&JUSTIFIED[grams]);
    } else {
        columns[2..4].copy_from_slice(&JUSTIFIED[grams / 100]);
        columns[4..6].copy_from_slice(&PAIRS[grams % 100]);
    }
    columns[6] = b'.';
    columns[7] = b'0' + (thousandths / 100) as u8;
    columns[8..].copy_from_slice(&PAIRS[thousandths % 100]);
}
