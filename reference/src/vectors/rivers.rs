//! Damaged rivers: check 4 of every call, at every place of a river.

use super::limits::filled;
use super::scene::Scene;
use super::sets::MILD;
use crate::river::{AMOUNTS, CARRIES};
use crate::rows::PROCESSES;
use crate::substances::{HIGHEST, LOWEST, SUBSTANCES};

/// Makes one of the calls that are given a river, with arguments that are refused
/// by themselves in every third.
fn some_call(scene: &mut Scene, which: usize) {
    let wrong = which % 3 == 0;
    let cell = if wrong { 0 } else { 1 };
    match which % 7 {
        0 => scene.load(cell, 7, 1),
        1 => scene.flow(if wrong { 10_001 } else { 77 }),
        2 => scene.air(cell, 2_000, 60, 9_000_000),
        3 => scene.step(if wrong { 0 } else { 5 }, 400_000, MILD),
        4 => scene.totals(cell),
        5 => scene.letter(cell),
        _ => scene.write(if wrong { 10 } else { 7_600 }, 7_600),
    };
}

pub fn damaged(scene: &mut Scene) {
    let mut which = 0;
    for cells in [1, 2, 5, 8] {
        filled(scene, cells);
        scene.step(20, 500_000, MILD);
        let held = cells as usize * SUBSTANCES;
        for place in 0..AMOUNTS {
            let (low, high) = (LOWEST[place % SUBSTANCES], HIGHEST[place % SUBSTANCES]);
            let values = if place < held {
                [low, low - 1, high, high + 1, i64::MIN, i64::MAX]
            } else {
                [1, -1, low - 1, high, i64::MIN, i64::MAX]
            };
            // Every place in a river of two cells, every few in the others.
            for value in values {
                if cells == 2 || scene.random.once_in(6) {
                    scene.amount(place, value);
                    some_call(scene, which);
                    which += 1;
                }
            }
        }
        for place in 0..CARRIES {
            let within = place < cells as usize * PROCESSES;
            let values = if within { [999_999, 1_000_000, u32::MAX] } else { [1, 999_999, 0] };
            for value in values {
                if cells == 2 || scene.random.once_in(6) {
                    scene.carry(place, value);
                    some_call(scene, which);
                    which += 1;
                }
            }
        }
        // A river of more or fewer cells than it holds something in.
        for number in (0..=10).chain([256, u32::MAX]) {
            for _ in 0..7 {
                scene.cells(number);
                some_call(scene, which);
                which += 1;
            }
        }
    }
}
