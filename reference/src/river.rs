//! The river: a train of one to eight cells, each of 18 amounts and 17 carries,
//! and the calls that move amounts without any process: load, flow and air.

use crate::refusal;
use crate::rows::{self, PROCESSES};
use crate::sets::Set;
use crate::substances::*;

/// Cells a river may have.
pub const CELLS: usize = 8;
/// Amounts a river has room for.
pub const AMOUNTS: usize = CELLS * SUBSTANCES;
/// Carries a river has room for.
pub const CARRIES: usize = CELLS * PROCESSES;
/// A carry counts millionths of a batch and stays below this.
pub const BATCH: u32 = 1_000_000;

/// A river. Amounts and carries stand cell after cell, zeros beyond the last.
#[derive(Clone, Debug, PartialEq, Eq)]
pub struct River {
    pub cells: u32,
    pub amounts: [i64; AMOUNTS],
    pub carries: [u32; CARRIES],
}

impl River {
    /// The longest a call may last, in seconds.
    pub const SECONDS_MAX: u32 = 3_600;
    /// The whole of an amount, in the parts a flow counts in.
    pub const PART_MAX: u32 = 10_000;
    /// The greatest air constant.
    pub const AIR_MAX: u32 = 20_000;
    /// The greatest saturation, in µg.
    pub const SATURATION_MAX: u32 = 20_000_000;

    /// An all-zero river of so many cells; a river of 0 cells, which every call
    /// refuses, if the number of cells is refused.
    pub fn fresh(cells: u32) -> (u32, River) {
        let exists = (1..=CELLS as u32).contains(&cells);
        let river = River {
            cells: if exists { cells } else { 0 },
            amounts: [0; AMOUNTS],
            carries: [0; CARRIES],
        };
        (if exists { refusal::NONE } else { refusal::RIVER }, river)
    }

    /// Check 4. No exit is early: nearly every river passes, and plain passes over
    /// the arrays are the fastest.
    pub fn check(&self) -> u32 {
        let cells = self.cells as usize;
        if !(1..=CELLS).contains(&cells) {
            return refusal::RIVER;
        }
        let (held, beyond) = self.amounts.split_at(cells * SUBSTANCES);
        let (carries, carries_beyond) = self.carries.split_at(cells * PROCESSES);
        let sound = held.as_chunks().0.iter().all(in_bounds)
            && carries.iter().fold(true, |sound, &carry| sound & (carry < BATCH))
            && beyond.iter().fold(0, |bits, &amount| bits | amount) == 0
            && carries_beyond.iter().fold(0, |bits, &carry| bits | carry) == 0;
        if sound {
            refusal::NONE
        } else {
            refusal::RIVER
        }
    }

    /// Check 4, then 5 for a cell: its place, counted from 0.
    fn place(&self, cell: u32) -> Result<usize, u32> {
        if self.check() != refusal::NONE {
            Err(refusal::RIVER)
        } else if !(1..=self.cells).contains(&cell) {
            Err(refusal::PLACE)
        } else {
            Ok(cell as usize - 1)
        }
    }

    /// The amounts of a cell, counted from 0, of an accepted river.
    pub(crate) fn cell(&self, cell: usize) -> &[i64; SUBSTANCES] {
        &self.amounts.as_chunks().0[cell]
    }

    /// Adds a number of either sign to one amount.
    pub fn load(&mut self, cell: u32, substance: u32, change: i64) -> u32 {
        let cell = match self.place(cell) {
            Ok(cell) => cell,
            Err(number) => return number,
        };
        if !(1..=SUBSTANCES as u32).contains(&substance) {
            return refusal::PLACE;
        }
        let substance = substance as usize - 1;
        let amount = &mut self.amounts[cell * SUBSTANCES + substance];
        match amount.checked_add(change) {
            Some(sum) if (LOWEST[substance]..=HIGHEST[substance]).contains(&sum) => {
                *amount = sum;
                refusal::NONE
            }
            _ => refusal::AMOUNT,
        }
    }

    /// Passes a part of every amount down the train; the answer lists what left
    /// each cell.
    ///
    /// Check 8 cannot hold here: what stays and what passes both grow with the
    /// amount, so a cell ends with at most what it would at the bound, the bound.
    pub fn flow(&mut self, part: u32) -> (u32, [i64; AMOUNTS]) {
        let mut left = [0; AMOUNTS];
        if self.check() != refusal::NONE {
            return (refusal::RIVER, left);
        }
        if part > Self::PART_MAX {
            return (refusal::CONDITION, left);
        }
        let held = self.cells as usize * SUBSTANCES;
        for (left, &amount) in left.iter_mut().zip(&self.amounts[..held]) {
            *left = passed(amount, part);
        }
        for (amount, &left) in self.amounts[..held].iter_mut().zip(&left) {
            *amount -= left;
        }
        for (amount, &left) in self.amounts[SUBSTANCES..held].iter_mut().zip(&left) {
            *amount += left;
        }
        (refusal::NONE, left)
    }

    /// Exchanges oxygen of a cell with the air; the answer is the amount of O2
    /// added, below zero if the cell was over saturation.
    ///
    /// Check 8 cannot hold here: O2 moves towards saturation and not past it.
    pub fn air(&mut self, cell: u32, constant: u32, seconds: u32, saturation: u32) -> (u32, i64) {
        let cell = match self.place(cell) {
            Ok(cell) => cell,
            Err(number) => return (number, 0),
        };
        if constant > Self::AIR_MAX
            || !(1..=Self::SECONDS_MAX).contains(&seconds)
            || saturation > Self::SATURATION_MAX
        {
            return (refusal::CONDITION, 0);
        }
        let oxygen = &mut self.amounts[cell * SUBSTANCES + O2];
        let deficit = i64::from(saturation) - *oxygen / W_O;
        let share = i64::from(constant) * 1_000_000 * i64::from(seconds) / 86_400;
        let added = deficit * share / 1_000_000_000 * W_O;
        *oxygen += added;
        (refusal::NONE, added)
    }

    /// The letter of a cell: L short of oxygen, N with much ammonium, else a
    /// hyphen; 0 if refused.
    pub fn letter(&self, cell: u32) -> (u32, u8) {
        let amounts = match self.place(cell) {
            Ok(cell) => self.cell(cell),
            Err(number) => return (number, 0),
        };
        let (oxygen, ammonium) = (amounts[O2] / W_O, amounts[NH4] / W_N);
        (refusal::NONE, letter_of(oxygen as u32, ammonium as u32))
    }
}

/// The letter by the levels of O2 and NH4, in µg.
#[inline]
pub(crate) fn letter_of(oxygen: u32, ammonium: u32) -> u8 {
    if oxygen < 2_000_000 {
        b'L'
    } else if ammonium > 1_000_000 {
        b'N'
    } else {
        b'-'
    }
}

/// amount × part / 10,000 toward zero. The product may need 74 bits, so whole ten
/// thousands and the rest, both with the amount's sign, are taken apart.
fn passed(amount: i64, part: u32) -> i64 {
    let part = i64::from(part);
    amount / 10_000 * part + amount % 10_000 * part / 10_000
}

/// The grains of C, H, O, N, P and the charge that one cell holds under a set.
///
/// H is the largest and lies between −3 × 10^18 and 6 × 10^18 for any river in
/// bounds.
pub fn totals(set: &Set, river: &River, cell: u32) -> (u32, [i64; 6]) {
    let number = rows::fill(set, &mut [[0; SUBSTANCES]; PROCESSES]);
    if number != refusal::NONE {
        return (number, [0; 6]);
    }
    let a = match river.place(cell) {
        Ok(cell) => river.cell(cell),
        Err(number) => return (number, [0; 6]),
    };
    let mut elements = [0; 5];
    for (substance, made_of) in set.organics() {
        for (element, fraction) in elements.iter_mut().zip(made_of.to_array()) {
            *element += a[substance] * i64::from(fraction);
        }
    }
    let [c, h, o, n, p] = std::array::from_fn(|element| elements[element] * GRAINS[element]);
    let totals = [
        c + a[HCO3],
        h + 4 * a[NH4] + a[HPO4] + a[HCO3] + a[H] + a[XP] + 2 * a[H2O],
        o + 2 * a[NO2] + 3 * a[NO3] + 4 * (a[HPO4] + a[XP]) + 2 * a[O2] + 3 * a[HCO3] + a[H2O],
        n + a[NH4] + a[NO2] + a[NO3] + 2 * a[N2],
        p + a[HPO4] + a[XP],
        a[NH4] + a[H] - a[NO2] - a[NO3] - a[HCO3] - 2 * (a[HPO4] + a[XP]),
    ];
    (refusal::NONE, totals)
}
