//! Calls on a river at every limit of their arguments and one past it, and with
//! several faults at once.

use super::scene::Scene;
use super::sets::{published, MILD};
use crate::substances::{HIGHEST, LOWEST, SUBSTANCES};

/// A begun block with a river of so many cells that has something of everything.
pub fn filled(scene: &mut Scene, cells: u32) {
    scene.begin(&published());
    scene.fresh(cells);
    fill(scene, cells);
}

/// Loads something of everything into each cell; about half of the cells have hardly
/// any oxygen.
pub fn fill(scene: &mut Scene, cells: u32) {
    for cell in 1..=cells {
        for substance in 1..=SUBSTANCES as u32 {
            let change = usual(scene, substance as usize - 1);
            scene.load(cell, substance, change);
        }
    }
}

/// An amount such as rivers have.
fn usual(scene: &mut Scene, substance: usize) -> i64 {
    let random = &mut scene.random;
    match substance {
        0 | 1 | 9..=14 => 200_000 + random.scaled(20_000_000) as i64,
        8 | 16 => random.scaled(10_000_000_000_000) as i64 - 3_000_000_000_000,
        7 => 1_000_000_000_000_000 + random.scaled(1_000_000_000_000_000) as i64,
        6 if random.once_in(2) => random.scaled(100_000_000) as i64,
        _ => 10_000_000_000_000 + random.scaled(200_000_000_000_000) as i64,
    }
}

/// Cells that exist and that do not, for a river of so many.
fn some_cells(cells: u32) -> [u32; 7] {
    [0, 1, cells, cells + 1, 8, 9, u32::MAX]
}

/// Loads to each bound and one past it, of the extreme 64-bit numbers, and to
/// places that do not exist.
pub fn loads(scene: &mut Scene) {
    for cells in [1, 3, 8] {
        filled(scene, cells);
        for substance in 1..=SUBSTANCES {
            let place = (cells as usize - 1) * SUBSTANCES + substance - 1;
            let (low, high) = (LOWEST[substance - 1], HIGHEST[substance - 1]);
            let numbers = [i64::MIN, i64::MIN + 1, i64::MAX, i64::MAX - 1, -1, 0, 1];
            for number in numbers {
                scene.load(cells, substance as u32, number);
            }
            let amount = scene.river().amounts[place];
            for number in [high - amount + 1, low - amount - 1, high - amount, 1, -1, 1] {
                scene.load(cells, substance as u32, number);
            }
            for number in [i64::MAX, low - high - 1, low - high, -1, i64::MIN, 1, amount - low - 1]
            {
                scene.load(cells, substance as u32, number);
            }
        }
        for cell in some_cells(cells) {
            for substance in [0, 1, 18, 19, u32::MAX] {
                scene.load(cell, substance, 1);
                scene.load(cell, substance, i64::MIN);
            }
        }
    }
}

pub fn flows(scene: &mut Scene) {
    for cells in 1..=8 {
        filled(scene, cells);
        // Remainders of either sign, at the bounds and around zero.
        for place in 0..cells as usize * SUBSTANCES {
            let (low, high) = (LOWEST[place % SUBSTANCES], HIGHEST[place % SUBSTANCES]);
            let values = [low, high, low + 9_999, high - 1, 10_001, 9_999, 1];
            let part = scene.random.among(0, 10_000);
            let value = values[scene.random.below(7) as usize];
            scene.amount(place, value);
            scene.flow(part);
        }
        for place in [8, 16] {
            for value in [-3, -1, -9_999, -10_001, -20_003, -1_000_000_000_000_000_000] {
                for part in [1, 5_000, 9_999, 10_000] {
                    scene.amount(place, value);
                    scene.flow(part);
                }
            }
        }
        // A train full to its bounds stays in them.
        for part in [0, 1, 3_333, 5_000, 9_999, 10_000] {
            for place in 0..cells as usize * SUBSTANCES {
                let negative = place % SUBSTANCES == 8 && part % 2 == 1;
                let value = if negative { LOWEST[8] } else { HIGHEST[place % SUBSTANCES] };
                if cells <= 2 {
                    scene.amount(place, value);
                }
            }
            scene.flow(part);
        }
        for part in [10_001, 0, 65_536, 1, u32::MAX, 9_999, 5_000, 10_000, 10_000, 5_000] {
            scene.flow(part);
        }
    }
}

pub fn air(scene: &mut Scene) {
    for cells in [1, 2, 8] {
        filled(scene, cells);
        for cell in some_cells(cells) {
            scene.air(cell, 2_000, 600, 9_000_000);
            scene.air(cell, 20_001, 0, 20_000_001);
        }
        for constant in [0, 1, 2_000, 20_000, 20_001, u32::MAX] {
            for seconds in [0, 1, 59, 3_600, 3_601, u32::MAX] {
                for saturation in [0, 1, 9_000_000, 20_000_000, 20_000_001, u32::MAX] {
                    let cell = scene.random.among(1, cells);
                    scene.air(cell, constant, seconds, saturation);
                }
            }
        }
        // Oxygen at its bounds, at saturation, and around whole µg.
        for oxygen in [0, 1, 9_764_999, 9_765_000, 10_000_000_000_000_000] {
            for saturation in [0, 1, 2, 10_000_000, 20_000_000] {
                for constant in [1, 2_000, 20_000] {
                    for seconds in [1, 3_600] {
                        scene.amount((cells as usize - 1) * SUBSTANCES + 6, oxygen);
                        scene.air(cells, constant, seconds, saturation);
                    }
                }
            }
        }
        for _ in 0..150 {
            let oxygen = scene.random.scaled(10_000_000_000_000_000) as i64;
            let constant = scene.random.among(0, 20_000);
            let seconds = scene.random.among(1, 3_600);
            let saturation = scene.random.among(0, 20_000_000);
            scene.amount(6, oxygen);
            scene.air(1, constant, seconds, saturation);
        }
    }
}

/// Conditions of a step at their limits and past them.
pub fn steps(scene: &mut Scene) {
    for cells in [1, 4, 8] {
        filled(scene, cells);
        for seconds in [0, 1, 2, 30, 3_600, 3_601, 65_536, u32::MAX] {
            for light in [0, 1, 1_000_000, 1_000_001, u32::MAX] {
                scene.step(seconds, light, MILD);
            }
        }
        for factor in 0..5 {
            for value in [0, 1, 999_999, 4_000_000, 4_000_001, u32::MAX] {
                let mut factors = MILD;
                factors[factor] = value;
                scene.step(20, 500_000, factors);
                factors = [0; 5];
                factors[factor] = value;
                scene.step(20, 500_000, factors);
            }
        }
        scene.step(20, 500_000, [4_000_000; 5]);
        scene.step(20, 500_000, [4_000_001; 5]);
    }
}

/// Letters and totals for cells that exist and that do not, and fresh rivers.
pub fn cells(scene: &mut Scene) {
    scene.begin(&published());
    for cells in (0..=10).chain([255, 256, 257, 65_537, u32::MAX - 1, u32::MAX]) {
        scene.fresh(cells);
        // A refused river has no cells, and every call refuses it.
        scene.load(1, 1, 1);
        scene.flow(1);
        scene.air(1, 1, 1, 1);
        scene.step(1, 1, MILD);
        scene.totals(1);
        scene.letter(1);
    }
    for cells in 1..=8 {
        filled(scene, cells);
        for cell in some_cells(cells).into_iter().chain(1..=cells) {
            scene.letter(cell);
            scene.totals(cell);
        }
        // The levels around which the letter changes, to a grain.
        let (oxygen, ammonium) = (2_000_000 * 9_765_000, 1_000_001 * 22_320_000);
        let at = (cells as usize - 1) * SUBSTANCES;
        for o2 in [0, oxygen - 9_765_000, oxygen - 1, oxygen, oxygen + 1, HIGHEST[6]] {
            for nh4 in [0, ammonium - 22_320_000, ammonium - 1, ammonium, HIGHEST[2]] {
                scene.amount(at + 6, o2);
                scene.amount(at + 2, nh4);
                scene.letter(cells);
            }
        }
        // Totals with amounts at the bounds, one by one and all together.
        for substance in 0..SUBSTANCES {
            for value in [LOWEST[substance], HIGHEST[substance]] {
                scene.amount(at + substance, value);
                scene.totals(cells);
            }
        }
        for bounds in [LOWEST, HIGHEST] {
            for (substance, value) in bounds.into_iter().enumerate() {
                scene.amount(at + substance, value);
            }
            scene.totals(cells);
        }
    }
}
