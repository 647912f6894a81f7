//! Bank pages: outputs of all lengths, levels around whole µg and whole thousandths
//! of a gram, the letter's limits, amounts of all sizes, damaged rivers.

use super::limits::fill;
use super::scene::Scene;
use super::sets::published;
use crate::page::ROW_BYTES;
use crate::river::{AMOUNTS, CARRIES};
use crate::rows::PROCESSES;
use crate::substances::*;

/// The longest output, for which a reader of the vectors has room.
const LONGEST: usize = 8_600;
/// An output long enough for every page, and one too short for any.
const ENOUGH: usize = 520;
const SHORT: usize = 64;

/// The substances on the page in its order, with the grains, or µg, of a level of 1.
const SHOWN: [(usize, i64); 6] =
    [(SS, 1), (NH4, W_N), (NO2, W_N), (NO3, W_N), (HPO4, W_P), (O2, W_O)];

/// Levels at which the value on the page changes or has one digit more, and levels next
/// to these.
const LEVELS: [i64; 21] = [
    0,
    1,
    999,
    1_000,
    1_001,
    1_999,
    2_000,
    9_999,
    10_000,
    99_999,
    100_000,
    999_999,
    1_000_000,
    1_000_001,
    9_999_999,
    10_000_000,
    99_999_999,
    100_000_000,
    999_999_999,
    1_000_000_000,
    1_024_065_540,
];

pub fn all(scene: &mut Scene) {
    for cells in 1..=8 {
        scene.begin(&published());
        scene.fresh(cells);
        scene.page(cells as usize * ROW_BYTES);
        // Something of everything in the first cell, and of that in all others.
        fill(scene, 1);
        for _ in 1..cells {
            scene.flow(3_456);
        }
        lengths(scene, cells);
        levels(scene, cells);
        letters(scene, cells);
        sizes(scene, cells);
        damaged(scene, cells);
    }
    scene.fresh(0);
    scene.page(LONGEST);
    scene.page(0);
}

fn lengths(scene: &mut Scene, cells: u32) {
    let length = cells as usize * ROW_BYTES;
    for output in [0, 1, 64, 65, 64 * cells as usize, length - 1, length, length + 1, 945, LONGEST]
    {
        scene.page(output);
    }
}

/// One amount at its limits, and one grain below, at and above a level.
fn levels(scene: &mut Scene, cells: u32) {
    for (substance, weight) in SHOWN {
        let bounds = LOWEST[substance]..=HIGHEST[substance];
        let around = LEVELS.iter().flat_map(|level| [-1, 0, 1].map(|more| level * weight + more));
        let limits = [*bounds.end() - 1, *bounds.end()];
        for amount in around.chain(limits).filter(|amount| bounds.contains(amount)) {
            if cells == 1 || scene.random.once_in(10) {
                let cell = scene.random.below(cells.into()) as usize;
                scene.amount(cell * SUBSTANCES + substance, amount);
                scene.page(ENOUGH);
            }
        }
    }
}

/// The levels around which the letter changes, to a grain.
fn letters(scene: &mut Scene, cells: u32) {
    let (oxygen, ammonium) = (2_000_000 * W_O, 1_000_001 * W_N);
    for o2 in [0, oxygen - W_O, oxygen - 1, oxygen, oxygen + 1, HIGHEST[O2]] {
        for nh4 in [0, ammonium - W_N, ammonium - 1, ammonium, HIGHEST[NH4]] {
            if cells == 1 || scene.random.once_in(3) {
                let cell = scene.random.below(cells.into()) as usize;
                scene.amount(cell * SUBSTANCES + O2, o2);
                scene.amount(cell * SUBSTANCES + NH4, nh4);
                scene.page(ENOUGH);
            }
        }
    }
}

/// Every amount on the page of any size, and all of them at their limits.
fn sizes(scene: &mut Scene, cells: u32) {
    for round in 0..12 {
        for cell in 0..cells as usize {
            for (substance, _) in SHOWN {
                let (low, high) = (LOWEST[substance], HIGHEST[substance]);
                let amount = match round {
                    0 => low,
                    1 => high,
                    _ => scene.random.scaled(high as u64) as i64,
                };
                scene.amount(cell * SUBSTANCES + substance, amount);
            }
        }
        scene.page(cells as usize * ROW_BYTES);
    }
}

/// Check 4 comes before 12: outputs long enough and too short, of rivers in bounds and
/// of such that are not.
fn damaged(scene: &mut Scene, cells: u32) {
    for place in 0..AMOUNTS {
        let (low, high) = (LOWEST[place % SUBSTANCES], HIGHEST[place % SUBSTANCES]);
        let values = if place < cells as usize * SUBSTANCES {
            [low - 1, high, high + 1, i64::MIN, i64::MAX]
        } else {
            [1, -1, high, i64::MIN, i64::MAX]
        };
        for value in values {
            if scene.random.once_in(40) {
                scene.amount(place, value);
                either_length(scene);
            }
        }
    }
    for place in 0..CARRIES {
        let within = place < cells as usize * PROCESSES;
        let values = if within { [999_999, 1_000_000, u32::MAX] } else { [1, 999_999, 0] };
        for value in values {
            if scene.random.once_in(40) {
                scene.carry(place, value);
                either_length(scene);
            }
        }
    }
    // A river of more or fewer cells than it holds something in.
    for number in [0, cells - 1, cells + 1, 8, 9, 256, u32::MAX] {
        for output in [ENOUGH, SHORT] {
            scene.cells(number);
            scene.page(output);
        }
    }
}

fn either_length(scene: &mut Scene) {
    let output = if scene.random.once_in(2) { ENOUGH } else { SHORT };
    scene.page(output);
}
