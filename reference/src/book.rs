//! The book of a stretch of cells: six totals kept from the arguments and answers
//! of the calls alone, without a look at the river. Written for plainness, since
//! the calls are measured against it.

use crate::refusal;
use crate::river::{River, AMOUNTS};
use crate::sets::Set;
use crate::step::{step, Temperature};
use crate::substances::{FORMULAS, GRAINS, O2, SUBSTANCES};

/// C, H, O, N, P in grains, and charge.
pub type Totals = [i128; 6];

/// A call of a list, without the river and the list's set.
#[derive(Clone, Debug)]
pub enum Call {
    Load { cell: u32, substance: u32, change: i64 },
    Flow { part: u32 },
    Air { cell: u32, constant: u32, seconds: u32, saturation: u32 },
    Step { seconds: u32, light: u32, temperature: Temperature },
}

/// The number of a call and what it answers besides, without the river.
#[derive(Clone, Debug)]
// One answer is looked at at a time, so the size of a flow's list does no harm.
#[allow(clippy::large_enum_variant)]
pub enum Answer {
    Load(u32),
    Flow(u32, [i64; AMOUNTS]),
    Air(u32, i64),
    Step(u32),
}

impl Call {
    /// Makes the call on a river; a step is under the list's set.
    pub fn make(&self, set: &Set, river: &mut River) -> Answer {
        match *self {
            Call::Load { cell, substance, change } => {
                Answer::Load(river.load(cell, substance, change))
            }
            Call::Flow { part } => {
                let (number, left) = river.flow(part);
                Answer::Flow(number, left)
            }
            Call::Air { cell, constant, seconds, saturation } => {
                let (number, added) = river.air(cell, constant, seconds, saturation);
                Answer::Air(number, added)
            }
            Call::Step { seconds, light, ref temperature } => {
                Answer::Step(step(set, river, seconds, light, temperature))
            }
        }
    }
}

impl Answer {
    /// The number of the call.
    pub fn number(&self) -> u32 {
        match *self {
            Answer::Load(number)
            | Answer::Flow(number, _)
            | Answer::Air(number, _)
            | Answer::Step(number) => number,
        }
    }
}

/// The contents of a number of some substance, counted from 0, under a set.
pub fn contents(set: &Set, substance: usize, number: i64) -> Totals {
    let organic = set.organics().into_iter().find(|&(place, _)| place == substance);
    match organic {
        Some((_, made_of)) => {
            let mut totals = [0; 6];
            for (element, fraction) in made_of.to_array().into_iter().enumerate() {
                totals[element] =
                    i128::from(number) * i128::from(GRAINS[element]) * i128::from(fraction);
            }
            totals
        }
        None => FORMULAS[substance].map(|atoms| i128::from(number) * i128::from(atoms)),
    }
}

/// The contents of all amounts of a cell, added.
pub fn contents_of_all(set: &Set, amounts: &[i64]) -> Totals {
    let mut totals = [0; 6];
    for (substance, &amount) in amounts.iter().enumerate() {
        add(&mut totals, 1, contents(set, substance, amount));
    }
    totals
}

/// Adds so many times the second totals to the first.
pub fn add(totals: &mut Totals, times: i128, more: Totals) {
    for (total, more) in totals.iter_mut().zip(more) {
        *total += times * more;
    }
}

/// The book of cells first to last, counted from 1.
#[derive(Clone, Debug)]
pub struct Book {
    pub first: u32,
    pub last: u32,
    pub totals: Totals,
}

impl Book {
    /// The book of a stretch before any call.
    pub fn new(first: u32, last: u32) -> Self {
        Book { first, last, totals: [0; 6] }
    }

    /// Enters one call with its answer.
    pub fn enter(&mut self, set: &Set, call: &Call, answer: &Answer) {
        if answer.number() != refusal::NONE {
            return;
        }
        let inside = |cell: u32| (self.first..=self.last).contains(&cell);
        match (call, answer) {
            (&Call::Load { cell, substance, change }, _) if inside(cell) => {
                add(&mut self.totals, 1, contents(set, substance as usize - 1, change));
            }
            (&Call::Air { cell, .. }, &Answer::Air(_, added)) if inside(cell) => {
                add(&mut self.totals, 1, contents(set, O2, added));
            }
            (Call::Flow { .. }, Answer::Flow(_, left)) => {
                let of = |cell: u32| &left[(cell as usize - 1) * SUBSTANCES..][..SUBSTANCES];
                if self.first > 1 {
                    add(&mut self.totals, 1, contents_of_all(set, of(self.first - 1)));
                }
                add(&mut self.totals, -1, contents_of_all(set, of(self.last)));
            }
            _ => (),
        }
    }
}
