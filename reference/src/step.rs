//! The step: in every cell each process runs for some seconds at the rate its old
//! amounts allow, in whole batches; what is short of a batch is carried over.

pub use crate::extents::Temperature;
use crate::extents::{Conditions, ONE};
use crate::refusal;
use crate::river::{River, BATCH, CELLS};
use crate::rows::{self, Entries, Rows, PROCESSES};
use crate::sets::Set;
use crate::substances::*;

/// The most whole batches a process may reach in one step.
const BATCHES_MAX: u64 = 100_000;

/// Steps all cells of the river together.
pub fn step(
    set: &Set,
    river: &mut River,
    seconds: u32,
    light: u32,
    temperature: &Temperature,
) -> u32 {
    match Stepper::new(set) {
        Ok(stepper) => stepper.step(river, seconds, light, temperature),
        Err(number) => number,
    }
}

/// An accepted set with its rows made, for many steps under one set.
pub struct Stepper<'a> {
    set: &'a Set,
    rows: Rows,
}

impl<'a> Stepper<'a> {
    /// Checks the set and makes its rows, or answers the set's number.
    #[inline]
    pub fn new(set: &'a Set) -> Result<Self, u32> {
        let mut stepper = Stepper { set, rows: [[0; SUBSTANCES]; PROCESSES] };
        match rows::fill(set, &mut stepper.rows) {
            refusal::NONE => Ok(stepper),
            number => Err(number),
        }
    }

    /// Steps all cells of the river together.
    pub fn step(
        &self,
        river: &mut River,
        seconds: u32,
        light: u32,
        temperature: &Temperature,
    ) -> u32 {
        if river.check() != refusal::NONE {
            return refusal::RIVER;
        }
        if !(1..=River::SECONDS_MAX).contains(&seconds)
            || u64::from(light) > ONE
            || temperature.to_array().iter().any(|&factor| factor > Temperature::MAX)
        {
            return refusal::CONDITION;
        }
        let conditions = Conditions {
            set: self.set,
            rows: &self.rows,
            seconds: seconds.into(),
            light: light.into(),
            temperature,
        };
        let cells = river.cells as usize;
        let (carries, _) = river.carries.as_chunks::<PROCESSES>();

        // The river is written only when every cell has passed 7 and then 8.
        let mut new_amounts = [[0; SUBSTANCES]; CELLS];
        let mut new_carries = [[0; PROCESSES]; CELLS];
        let mut sound = true;
        for cell in 0..cells {
            let old = river.cell(cell);
            let extents = conditions.extents(old);
            let mut batches = [0; PROCESSES];
            let mut most = 0;
            for process in 0..PROCESSES {
                let reached = u64::from(carries[cell][process]) + extents[process];
                let whole = reached / u64::from(BATCH);
                most = most.max(whole);
                batches[process] = whole as i64;
                new_carries[cell][process] = (reached % u64::from(BATCH)) as u32;
            }
            if most > BATCHES_MAX {
                return refusal::BATCHES;
            }
            new_amounts[cell] = self.apply(old, &batches);
            sound &= in_bounds(&new_amounts[cell]);
        }
        if !sound {
            return refusal::AMOUNT;
        }
        let new_amounts = new_amounts[..cells].as_flattened();
        let new_carries = new_carries[..cells].as_flattened();
        river.amounts[..new_amounts.len()].copy_from_slice(new_amounts);
        river.carries[..new_carries.len()].copy_from_slice(new_carries);
        refusal::NONE
    }

    /// The amounts of a cell after so many batches of each process. Only the
    /// entries a row can have are gone through; they are known before any set.
    #[inline]
    fn apply(&self, old: &Entries, batches: &[i64; PROCESSES]) -> Entries {
        let mut new = *old;
        for &substance in &[HPO4, HCO3, H, H2O] {
            // Every process of an organism touches these four.
            new[substance] += (0..15)
                .map(|process| batches[process] * self.rows[process][substance])
                .sum::<i64>();
        }
        let mut add = |process: usize, substances: &[usize]| {
            for &substance in substances {
                new[substance] += batches[process] * self.rows[process][substance];
            }
        };
        add(0, &[SS, XH, NH4, O2]);
        add(1, &[SS, XH, NO3, O2]);
        add(2, &[XH, XI, NH4, O2]);
        add(3, &[SS, XH, NO3, NO2]);
        add(4, &[SS, XH, NO2, N2]);
        add(5, &[XH, XI, NH4, NO3, N2]);
        add(6, &[XN1, NH4, NO2, O2]);
        add(7, &[XN1, XI, NH4, O2]);
        add(8, &[XN2, NO2, NO3, O2]);
        add(9, &[XN2, XI, NH4, O2]);
        add(10, &[XALG, NH4, O2]);
        add(11, &[XALG, NO3, O2]);
        add(12, &[XALG, XI, NH4, O2]);
        add(13, &[XALG, XS, XI, NH4, O2]);
        add(14, &[XS, SS, NH4, O2]);
        add(15, &[HPO4, XP]);
        add(16, &[HPO4, XP]);
        new
    }
}
