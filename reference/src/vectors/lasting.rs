//! Rivers that evolve through many calls, with and without oxygen, under several
//! sets, so that every process makes whole batches.

use super::limits::fill;
use super::scene::Scene;
use super::sets::{published, zero_entries_sets};
use crate::book::Call;
use crate::lists::{random_call, random_set};
use crate::sets::{check, Set};
use crate::step::Temperature;
use crate::substances::SUBSTANCES;

/// What a river is like while it evolves.
#[derive(Clone, Copy)]
enum Water {
    /// The air brings oxygen.
    Aired,
    /// No oxygen but what algae make.
    Still,
    /// Whatever the calls bring.
    Any,
}

pub fn evolving(scene: &mut Scene) {
    let mut sets = vec![published()];
    sets.extend(zero_entries_sets().into_iter().filter(|set| check(set) == 0));
    for _ in 0..6 {
        sets.push(random_set(&mut scene.random));
    }
    for set in &sets {
        for water in [Water::Aired, Water::Still, Water::Any] {
            let cells = scene.random.among(1, 8);
            river(scene, set, cells, water);
        }
    }
}

fn river(scene: &mut Scene, set: &Set, cells: u32, water: Water) {
    scene.begin(set);
    scene.fresh(cells);
    fill(scene, cells);
    for turn in 0..40 {
        for cell in 1..=cells {
            refreshed(scene, cell, water);
        }
        usual_step(scene, matches!(water, Water::Any));
        let part = scene.random.among(0, 900);
        match turn % 5 {
            0 => scene.flow(part),
            1 => scene.letter(1 + part % cells),
            2 => scene.totals(1 + part % cells),
            _ => any_call(scene, cells),
        };
    }
    scene.write(7_560, 7_560);
    scene.read();
}

/// Air, or none and the oxygen taken out; and in each turn a load of one thing that
/// processes use up.
fn refreshed(scene: &mut Scene, cell: u32, water: Water) {
    let at = (cell as usize - 1) * SUBSTANCES;
    let random = &mut scene.random;
    match water {
        Water::Aired => {
            let constant = random.among(500, 20_000);
            scene.air(cell, constant, 900, 9_500_000);
        }
        Water::Still => {
            let oxygen = scene.river().amounts[at + 6];
            if oxygen > 0 && scene.random.once_in(4) {
                scene.load(cell, 7, -oxygen);
            }
        }
        Water::Any => (),
    }
    if scene.random.once_in(4) {
        let used = [1, 3, 4, 5, 6, 8, 14];
        let substance = used[scene.random.below(7) as usize];
        let amount = scene.river().amounts[at + substance as usize - 1];
        let wanted = match substance {
            1 | 14 => 8_000_000,
            8 => 1_000_000_000_000_000,
            _ => 60_000_000_000_000,
        };
        if amount < wanted {
            let change = wanted - amount + scene.random.scaled(100_000) as i64;
            scene.load(cell, substance, change);
        }
    }
}

/// A step that is long if the river allows it, else shorter ones until one passes.
fn usual_step(scene: &mut Scene, any: bool) {
    let random = &mut scene.random;
    let mut seconds = if any { random.among(1, 3_600) } else { random.among(60, 1_200) };
    let light = random.among(0, 1_000_000);
    let factors = std::array::from_fn(|_| random.among(0, if any { 4_000_000 } else { 1_500_000 }));
    for _ in 0..3 {
        if scene.step(seconds, light, factors) == 0 {
            break;
        }
        seconds = (seconds / 8).max(1);
    }
}

/// A call as the balance makes them, refused ones among them.
fn any_call(scene: &mut Scene, cells: u32) -> u32 {
    match random_call(&mut scene.random, cells) {
        Call::Load { cell, substance, change } => scene.load(cell, substance, change),
        Call::Flow { part } => scene.flow(part),
        Call::Air { cell, constant, seconds, saturation } => {
            scene.air(cell, constant, seconds, saturation)
        }
        Call::Step { seconds, light, temperature } => {
            let Temperature { xh, xn1, xn2, algae, hydrolysis } = temperature;
            scene.step(seconds, light, [xh, xn1, xn2, algae, hydrolysis])
        }
    }
}
