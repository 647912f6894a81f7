//! Records: written into buffers of all lengths, read, handed out by cells, and
//! texts that are no records by one byte, one line or one value.

use super::limits::filled;
use super::scene::{record_bytes, Scene};
use super::sets::MILD;
use crate::record::CELL_BYTES;
use crate::rows::PROCESSES;
use crate::substances::{HIGHEST, LOWEST, SUBSTANCES};

const LINE: usize = 27;
const LINES: usize = SUBSTANCES + PROCESSES;
/// Where the value begins in a line, and how many columns it has.
const VALUE: usize = 6;
const COLUMNS: usize = 20;

pub fn all(scene: &mut Scene) {
    for cells in 1..=8 {
        filled(scene, cells);
        scene.step(20, 500_000, MILD);
        scene.flow(123);
        written(scene, cells);
        handed_out(scene, cells);
        lengths(scene, cells);
        values(scene, cells);
        lines(scene, cells);
        one_byte(scene, cells);
    }
    nine_cells(scene);
    scene.fresh(0);
    scene.write(7_560, 7_560);
    scene.read();
    scene.lines_of(1);
}

fn written(scene: &mut Scene, cells: u32) {
    let length = record_bytes(cells);
    for output in [0, 1, 944, length - 1, length, length + 1, 7_600] {
        for work in [0, length - 1, length, length + 1, 7_600] {
            scene.write(output, work);
        }
    }
    // Amounts of all sizes, and at their bounds.
    for place in 0..cells as usize * SUBSTANCES {
        let (low, high) = (LOWEST[place % SUBSTANCES], HIGHEST[place % SUBSTANCES]);
        let size = scene.random.scaled(high as u64) as i64;
        let values = [low, high, low + 1, high - 1, size, if low < 0 { -size } else { 9 }];
        for value in values {
            if cells == 1 || scene.random.once_in(10) {
                scene.amount(place, value);
                scene.write(length, length);
                scene.amount(place, value);
                scene.read();
            }
        }
    }
    for place in 0..cells as usize * PROCESSES {
        if cells == 1 || scene.random.once_in(10) {
            let carry = scene.random.scaled(999_999) as u32;
            scene.carry(place, carry);
            scene.write(length, length);
            scene.carry(place, carry);
            scene.read();
        }
    }
}

fn handed_out(scene: &mut Scene, cells: u32) {
    scene.read();
    for cell in (0..=9).chain([255, 256, 257, u32::MAX]) {
        scene.lines_of(cell);
        // A text that is no record comes before a cell that is not.
        scene.put(CELL_BYTES - 1, b" ");
        scene.lines_of(cell);
    }
    for cell in 1..=cells {
        let value = scene.random.scaled(999_999_999) as i64;
        scene.amount((cell as usize - 1) * SUBSTANCES + 13, value);
        scene.lines_of(cell);
    }
}

/// Texts that end early or late.
fn lengths(scene: &mut Scene, cells: u32) {
    let length = record_bytes(cells);
    let cell = length - CELL_BYTES;
    for cut in [0, 1, 26, 27, 944, 945, cell, cell + 1, length - 27, length - 1] {
        scene.length(cut);
        scene.read();
        scene.length(cut);
        scene.lines_of(1);
    }
    for byte in [0, b'\n', b' ', b'\r', b'1'] {
        scene.put(length, &[byte]);
        scene.length(length + 1);
        scene.read();
        scene.put(length, &[byte]);
        scene.length(length + 1);
        scene.lines_of(1);
    }
    // The first byte lost, all others in their order.
    scene.copy(1, 0, length - 1);
    scene.read();
    scene.copy(1, 0, length - 1);
    scene.length(length - 1);
    scene.read();
    // One more line, and one more cell that says it is the same.
    scene.copy(0, length, LINE);
    scene.length(length + LINE);
    scene.read();
    scene.copy(0, length, CELL_BYTES);
    scene.length(length + CELL_BYTES);
    scene.read();
}

/// A text in the columns of a value, to the right.
fn field(text: &str) -> Vec<u8> {
    format!("{text:>COLUMNS$}").into_bytes()
}

/// Reads the text with another value in a line, and hands out the line's cell.
fn with_value(scene: &mut Scene, cell: usize, line: usize, value: &[u8]) {
    let place = (cell * LINES + line) * LINE + VALUE;
    scene.put(place, value);
    scene.read();
    if scene.random.once_in(4) {
        scene.put(place, value);
        scene.lines_of(cell as u32 + 1);
    }
}

fn values(scene: &mut Scene, cells: u32) {
    let spellings = [
        "-0",
        "+1",
        "01",
        "00",
        "-01",
        "",
        "-",
        "--1",
        "1-",
        "1 2",
        "0x1",
        "1.",
        "1e3",
        "18446744073709551616",
        "18446744073709551617",
        "99999999999999999999",
        "00000000000000000001",
        "-9999999999999999999",
        "-1000000000000000000",
        "-1000000000000000001",
        "9223372036854775807",
        "9223372036854775808",
        "-9223372036854775808",
        "-9223372036854775809",
        "\t1",
        "1\r",
    ];
    for spelling in spellings {
        for line in [0, 2, 8, 16, 17, 18, 34] {
            if cells == 1 || scene.random.once_in(10) {
                let cell = scene.random.below(cells.into()) as usize;
                with_value(scene, cell, line, &field(spelling));
            }
        }
    }
    // Justified to the left, or one column from the right.
    for text in ["0                   ", "                  1 ", "1                  0"] {
        with_value(scene, cells as usize - 1, 4, text.as_bytes());
    }
    for line in 0..LINES {
        let (low, high) = match line {
            0..SUBSTANCES => (LOWEST[line], HIGHEST[line]),
            _ => (0, 999_999),
        };
        for value in [low - 1, low, high, high + 1] {
            if cells <= 2 || scene.random.once_in(10) {
                let cell = scene.random.below(cells.into()) as usize;
                with_value(scene, cell, line, &field(&value.to_string()));
            }
        }
    }
}

/// Lines in another order, of another cell, with another number, or twice.
fn lines(scene: &mut Scene, cells: u32) {
    let length = record_bytes(cells);
    let all = cells as usize * LINES;
    for _ in 0..8 {
        let (one, other) = (scene.random.below(all as u64), scene.random.below(all as u64));
        let (one, other) = (one as usize * LINE, other as usize * LINE);
        let free = length + CELL_BYTES;
        scene.copy(one, free.min(8_570), LINE);
        scene.copy(other, one, LINE);
        scene.copy(free.min(8_570), other, LINE);
        scene.read();
        scene.copy(one, other, LINE);
        scene.read();
    }
    for heading in [" 0", " 2", "01", "1 ", " 9", "11", "  ", "10"] {
        let line = scene.random.below(all as u64) as usize;
        scene.put(line * LINE, heading.as_bytes());
        scene.read();
        scene.put(line * LINE + 3, heading.as_bytes());
        scene.read();
    }
    if cells > 1 {
        // Two cells change places, and one stands twice.
        let last = length - CELL_BYTES;
        scene.copy(0, last, CELL_BYTES);
        scene.read();
        scene.copy(last, 0, CELL_BYTES);
        scene.lines_of(1);
    }
}

/// One byte of the text changed: mostly no record any more, sometimes another one.
fn one_byte(scene: &mut Scene, cells: u32) {
    let length = record_bytes(cells);
    for column in 0..LINE {
        for byte in [b' ', b'0', b'1', b'9', b'-', b'+', b'\n', b'\r', b'\t', 0, 255, b':', b'/'] {
            if cells > 2 && !scene.random.once_in(6) {
                continue;
            }
            let line = scene.random.below(length as u64 / LINE as u64) as usize;
            scene.put(line * LINE + column, &[byte]);
            if scene.random.once_in(4) {
                let cell = scene.random.among(1, cells);
                scene.lines_of(cell);
            } else {
                scene.read();
            }
        }
    }
    for _ in 0..120 {
        // The last columns, where most digits stand.
        let line = scene.random.below(length as u64 / LINE as u64) as usize;
        let column = scene.random.among(16, 25) as usize;
        let digit = b'0' + scene.random.below(10) as u8;
        scene.put(line * LINE + column, &[digit]);
        scene.read();
    }
}

/// A text of nine cells is no record, even where each line is right.
fn nine_cells(scene: &mut Scene) {
    for call in [Scene::read, |scene: &mut Scene| scene.lines_of(1)] {
        scene.copy(7 * CELL_BYTES, 8 * CELL_BYTES, CELL_BYTES);
        for line in 0..LINES {
            scene.put((8 * LINES + line) * LINE + 1, b"9");
        }
        scene.length(9 * CELL_BYTES);
        call(scene);
    }
}
