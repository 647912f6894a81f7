//! Steps at the edges of checks 7 and 8: for each process alone, the last level at
//! which it passes and the first at which it does not.

use super::scene::Scene;
use super::sets::{published, MILD};
use crate::refusal;
use crate::river::River;
use crate::rows::{rows, PROCESSES};
use crate::sets::{Rates, Set};
use crate::step::{step, Temperature};
use crate::substances::*;

/// The rate constant of each process, by its place among the 15.
const RATE: [usize; PROCESSES] = [0, 0, 1, 2, 2, 3, 4, 5, 6, 7, 8, 9, 10, 11, 12, 13, 14];
/// What gives the level X of each process.
const ORGANISM: [usize; PROCESSES] =
    [XH, XH, XH, XH, XH, XH, XN1, XN1, XN2, XN2, XALG, XALG, XALG, XALG, XS, HPO4, XP];

/// The published set with one rate constant, the highest, and all others 0.
fn alone(process: usize) -> Set {
    let mut rates = [0; 15];
    rates[RATE[process]] = Set::RATE_MAX;
    Set { rates: Rates::from(rates), ..published() }
}

/// A cell with plenty of all that the process needs, and nothing that hinders it.
fn fit_for(process: usize) -> [i64; SUBSTANCES] {
    let mut amounts = [0; SUBSTANCES];
    for (substance, amount) in amounts.iter_mut().enumerate() {
        *amount = match substance {
            H | H2O => 0,
            SS | SI | XH..=XI => 500_000_000,
            _ => 5_000_000_000_000_000,
        };
    }
    if (3..=5).contains(&process) {
        amounts[O2] = 0;
    }
    if process == 1 || process == 11 {
        amounts[NH4] = 0;
    }
    // Of the two that share a constant only one is to run.
    if process == 3 {
        amounts[NO2] = 0;
    }
    if process == 4 {
        amounts[NO3] = 0;
    }
    amounts
}

/// The number of an hour's step from such amounts and carry.
fn number(set: &Set, amounts: &[i64; SUBSTANCES], process: usize, carry: u32) -> u32 {
    let (_, mut river) = River::fresh(1);
    river.amounts[..SUBSTANCES].copy_from_slice(amounts);
    river.carries[process] = carry;
    step(set, &mut river, 3_600, 1_000_000, &Temperature::from(MILD))
}

/// The least value from low to high at which a test holds that holds from some
/// value on; high if at none before it.
fn first(mut low: i64, mut high: i64, holds: impl Fn(i64) -> bool) -> i64 {
    while low < high {
        let middle = low + (high - low) / 2;
        if holds(middle) {
            high = middle;
        } else {
            low = middle + 1;
        }
    }
    high
}

/// A block for one process: its set alone, and a river of one cell fit for it.
fn begin(scene: &mut Scene, process: usize) -> [i64; SUBSTANCES] {
    scene.begin(&alone(process));
    scene.fresh(1);
    let amounts = fit_for(process);
    for (substance, &amount) in (1..).zip(&amounts) {
        scene.load(1, substance, amount);
    }
    amounts
}

/// Exactly 100,000 whole batches pass, one more is refused.
pub fn too_many(scene: &mut Scene) {
    for process in 0..PROCESSES {
        let amounts = begin(scene, process);
        let set = scene.set();
        let x = ORGANISM[process];
        for carry in [0, 1, 500_000, 999_999] {
            let refused = |value: i64| {
                let mut amounts = amounts;
                amounts[x] = value;
                number(&set, &amounts, process, carry) == refusal::BATCHES
            };
            let edge = first(0, HIGHEST[x], refused);
            for value in [edge - 2, edge - 1, edge, edge + 1, HIGHEST[x]] {
                scene.amount(x, value.min(HIGHEST[x]));
                scene.carry(process, carry);
                scene.step(3_600, 1_000_000, MILD);
            }
        }
        // In the last of eight cells, with 8 in an earlier one.
        scene.cells(8);
        scene.amount(NH4, HIGHEST[NH4]);
        scene.amount(XI, HIGHEST[XI]);
        for (substance, amount) in amounts.into_iter().enumerate() {
            let value = if substance == x { HIGHEST[x] } else { amount };
            scene.amount(7 * SUBSTANCES + substance, value);
        }
        scene.step(3_600, 1_000_000, MILD);
    }
}

/// For each substance that a process takes up, the amount at which it runs out;
/// for each that it makes, the amount at which its bound is passed.
pub fn out_of_bounds(scene: &mut Scene) {
    for process in 0..PROCESSES {
        let mut amounts = begin(scene, process);
        let set = scene.set();
        // As much of the organism as passes check 7 and lets no substance run out.
        let x = ORGANISM[process];
        let passes = |value: i64| {
            let mut amounts = amounts;
            amounts[x] = value;
            number(&set, &amounts, process, 999_999) == refusal::NONE
        };
        amounts[x] = first(0, HIGHEST[x], |value| !passes(value)) * 3 / 4;
        scene.load(1, x as u32 + 1, amounts[x] - fit_for(process)[x]);
        let (_, entries) = rows(&set);
        for substance in 0..SUBSTANCES {
            let entry = entries[process * SUBSTANCES + substance];
            let outside = |value: i64| {
                let mut amounts = amounts;
                amounts[substance] = value;
                number(&set, &amounts, process, 0) == refusal::AMOUNT
            };
            let (low, high) = (LOWEST[substance], HIGHEST[substance]);
            let edge = match entry.signum() {
                -1 => first(low, amounts[substance], |value| !outside(value)),
                1 => first(amounts[substance], high, outside),
                _ => high,
            };
            for value in [low, edge - 1, edge, edge + 1, high] {
                scene.amount(substance, value.clamp(low, high));
                scene.step(3_600, 1_000_000, MILD);
            }
        }
        for seconds in [1, 10, 100, 1_000] {
            scene.step(seconds, 1_000_000, MILD);
        }
    }
}
