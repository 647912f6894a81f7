//! How far each process of a cell goes in a step: Monod factors and inhibitions of
//! the levels, temperature and light, taken together in the order the rules give.

use crate::rows::{Entries, Rows, PROCESSES};
use crate::sets::{figures, Set};
use crate::substances::*;

figures! {
    /// Temperature factors, in millionths.
    Temperature[5] {
        /// Of 1 to 6.
        xh,
        /// Of 7 and 8.
        xn1,
        /// Of 9 and 10.
        xn2,
        /// Of 11 to 14.
        algae,
        /// Of 15.
        hydrolysis,
    }
}

impl Temperature {
    /// The greatest temperature factor.
    pub const MAX: u32 = 4_000_000;
}

/// The factor that changes nothing, in millionths.
pub(crate) const ONE: u64 = 1_000_000;

/// The Monod factor of a level with a half-saturation, in millionths.
pub const fn monod(level: u64, half: u32) -> u64 {
    ONE * level / (half as u64 + level)
}

/// The inhibition by a level with a half-saturation, in millionths.
pub const fn inhibition(level: u64, half: u32) -> u64 {
    ONE * half as u64 / (half as u64 + level)
}

/// Monod factor and inhibition from one division: the two add to one, so where
/// either is cut the inhibition is one millionth less than what is missing.
const fn monod_and_inhibition(level: u64, half: u32) -> (u64, u64) {
    let (scaled, sum) = (ONE * level, half as u64 + level);
    let monod = scaled / sum;
    let cut = (monod * sum != scaled) as u64;
    (monod, ONE - monod - cut)
}

/// A product taken on by one more factor, rounded down.
const fn by(product: u64, factor: u64) -> u64 {
    product * factor / ONE
}

/// What every cell of a step shares: an accepted set with its rows, and the outer
/// conditions.
pub(crate) struct Conditions<'a> {
    pub set: &'a Set,
    pub rows: &'a Rows,
    pub seconds: u64,
    pub light: u64,
    pub temperature: &'a Temperature,
}

impl Conditions<'_> {
    /// The extents of all processes in a cell, in millionths of a batch. Processes
    /// of an organism that is not there are left at 0.
    #[inline]
    pub(crate) fn extents(&self, amounts: &Entries) -> [u64; PROCESSES] {
        let level = Levels::of(amounts);
        let mut extents = [0; PROCESSES];
        if level.xh > 0 {
            self.heterotrophs(&level, &mut extents);
        }
        if level.xn1 > 0 || level.xn2 > 0 {
            self.nitrifiers(&level, &mut extents);
        }
        if level.xalg > 0 {
            self.algae(&level, &mut extents);
        }
        let rates = &self.set.rates;
        let warmth = self.temperature.hydrolysis.into();
        extents[14] = self.extent(level.xs, rates.hydrolysis, warmth, 100);
        extents[15] = self.extent(level.hpo4, rates.adsorption, ONE, 100);
        extents[16] = self.extent(level.xp, rates.desorption, ONE, 100);
        extents
    }

    /// Processes 1 to 6.
    #[inline]
    fn heterotrophs(&self, level: &Levels, extents: &mut [u64; PROCESSES]) {
        let Set { halves, rates, yields, .. } = self.set;
        let warmth = self.temperature.xh.into();
        let x = level.xh;

        let oxygen = monod(level.o2, halves.aerobic_o2);
        let food = by(monod(level.ss, halves.aerobic_ss), oxygen);
        let (ammonium, no_ammonium) = monod_and_inhibition(level.nh4, halves.aerobic_nitrogen);
        // Rows 1 and 2 have the same organic changes, so one P factor serves both.
        let phosphate = self.phosphate(0, level, halves.aerobic_p);
        // Growth that sets nitrogen free takes up neither ammonium nor nitrate.
        let (first, second) = if self.rows[0][NH4] < 0 {
            let nitrate = monod(level.no3, halves.aerobic_nitrogen);
            (by(food, ammonium), by(by(food, no_ammonium), nitrate))
        } else {
            (food, 0)
        };
        let (k, b) = (rates.aerobic_growth, yields.aerobic.into());
        extents[0] = self.extent(x, k, by(by(first, phosphate), warmth), b);
        extents[1] = self.extent(x, k, by(by(second, phosphate), warmth), b);
        extents[2] = self.extent(x, rates.aerobic_respiration, by(oxygen, warmth), 100);

        let no_oxygen = inhibition(level.o2, halves.anoxic_o2);
        let food = by(monod(level.ss, halves.anoxic_ss), no_oxygen);
        let nitrate = monod(level.no3, halves.anoxic_no3);
        let nitrite = monod(level.no2, halves.anoxic_no2);
        let on_nitrate = by(by(food, nitrate), self.phosphate(3, level, halves.anoxic_p));
        let on_nitrite = by(by(food, nitrite), self.phosphate(4, level, halves.anoxic_p));
        let k = rates.anoxic_growth;
        extents[3] = self.extent(x, k, by(on_nitrate, warmth), yields.nitrate.into());
        extents[4] = self.extent(x, k, by(on_nitrite, warmth), yields.nitrite.into());
        let breath = by(by(no_oxygen, nitrate), warmth);
        extents[5] = self.extent(x, rates.anoxic_respiration, breath, 100);
    }

    /// Processes 7 to 10.
    #[inline]
    fn nitrifiers(&self, level: &Levels, extents: &mut [u64; PROCESSES]) {
        let Set { halves, rates, yields, .. } = self.set;

        let warmth = self.temperature.xn1.into();
        let oxygen = monod(level.o2, halves.n1_o2);
        let food = by(oxygen, monod(level.nh4, halves.n1_nh4));
        let growth = by(by(food, self.phosphate(6, level, halves.n1_p)), warmth);
        extents[6] = self.extent(level.xn1, rates.n1_growth, growth, yields.n1.into());
        extents[7] = self.extent(level.xn1, rates.n1_respiration, by(oxygen, warmth), 100);

        let warmth = self.temperature.xn2.into();
        let oxygen = monod(level.o2, halves.n2_o2);
        let food = by(oxygen, monod(level.no2, halves.n2_no2));
        let growth = by(by(food, self.phosphate(8, level, halves.n2_p)), warmth);
        extents[8] = self.extent(level.xn2, rates.n2_growth, growth, yields.n2.into());
        extents[9] = self.extent(level.xn2, rates.n2_respiration, by(oxygen, warmth), 100);
    }

    /// Processes 11 to 14.
    #[inline]
    fn algae(&self, level: &Levels, extents: &mut [u64; PROCESSES]) {
        let Set { halves, rates, .. } = self.set;
        let warmth = self.temperature.algae.into();
        let x = level.xalg;

        let nitrogen = monod(level.nh4 + level.no3, halves.algae_nitrogen);
        let (ammonium, no_ammonium) = monod_and_inhibition(level.nh4, halves.algae_nh4);
        // Rows 11 and 12 have the same organic change, so one P factor serves both.
        let phosphate = self.phosphate(10, level, halves.algae_p);
        let growth = |food| by(by(by(food, phosphate), self.light), warmth);
        let on_ammonium = growth(by(nitrogen, ammonium));
        let on_nitrate = growth(by(nitrogen, no_ammonium));
        extents[10] = self.extent(x, rates.algae_growth_ammonium, on_ammonium, 100);
        extents[11] = self.extent(x, rates.algae_growth_nitrate, on_nitrate, 100);
        let breath = by(monod(level.o2, halves.algae_o2), warmth);
        extents[12] = self.extent(x, rates.algae_respiration, breath, 100);
        extents[13] = self.extent(x, rates.algae_death, warmth, 10_000);
    }

    /// The P factor of a growth process, which stands only when its row takes up
    /// phosphate.
    #[inline]
    fn phosphate(&self, process: usize, level: &Levels, half: u32) -> u64 {
        if self.rows[process][HPO4] < 0 {
            monod(level.hpo4, half)
        } else {
            ONE
        }
    }

    /// The extent, in millionths of a batch of size b, of a process with level x,
    /// rate constant k and product p. x × q stays below 3.4 × 10^18.
    #[inline(always)]
    fn extent(&self, x: u64, k: u32, p: u64, b: u64) -> u64 {
        let q = u64::from(k) * p * self.seconds / 86_400;
        x * q / (1_000 * b)
    }
}

/// The levels the processes look at, in µg.
struct Levels {
    ss: u64,
    nh4: u64,
    no2: u64,
    no3: u64,
    hpo4: u64,
    o2: u64,
    xh: u64,
    xn1: u64,
    xn2: u64,
    xalg: u64,
    xs: u64,
    xp: u64,
}

impl Levels {
    /// The levels of a cell in bounds, so none of these amounts is below zero.
    #[inline(always)]
    fn of(amounts: &Entries) -> Self {
        let micrograms = |substance: usize| amounts[substance] as u64;
        let level = |substance: usize, weight: i64| micrograms(substance) / weight as u64;
        Levels {
            ss: micrograms(SS),
            nh4: level(NH4, W_N),
            no2: level(NO2, W_N),
            no3: level(NO3, W_N),
            hpo4: level(HPO4, W_P),
            o2: level(O2, W_O),
            xh: micrograms(XH),
            xn1: micrograms(XN1),
            xn2: micrograms(XN2),
            xalg: micrograms(XALG),
            xs: micrograms(XS),
            xp: level(XP, W_P),
        }
    }
}
