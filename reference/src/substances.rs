//! The 18 substances: their places in a cell, bounds, grain weights and formulas.

/// Substances in a cell.
pub const SUBSTANCES: usize = 18;

pub const SS: usize = 0;
pub const SI: usize = 1;
pub const NH4: usize = 2;
pub const NO2: usize = 3;
pub const NO3: usize = 4;
pub const HPO4: usize = 5;
pub const O2: usize = 6;
pub const HCO3: usize = 7;
pub const H: usize = 8;
pub const XH: usize = 9;
pub const XN1: usize = 10;
pub const XN2: usize = 11;
pub const XALG: usize = 12;
pub const XS: usize = 13;
pub const XI: usize = 14;
pub const XP: usize = 15;
pub const H2O: usize = 16;
pub const N2: usize = 17;

/// The most of an organic, in µg.
pub const ORGANIC_MAX: i64 = 1_000_000_000;
/// The most of any other substance, in grains.
pub const GRAINS_MAX: i64 = 10_000_000_000_000_000;
/// The largest net change of H+ and H2O, either way, in grains.
pub const NET_MAX: i64 = 1_000_000_000_000_000_000;

/// Grains per µg of oxygen, nitrogen and phosphorus.
pub const W_O: i64 = 9_765_000;
pub const W_N: i64 = 22_320_000;
pub const W_P: i64 = 10_080_000;

/// Grains of C, H, O, N, P in a thousandth of a µg of the element.
pub const GRAINS: [i64; 5] = [26_040, 312_480, 19_530, 22_320, 10_080];

/// Atoms of C, H, O, N, P and the charge of each formula; zeros for organics,
/// whose contents a set decides.
pub const FORMULAS: [[i64; 6]; SUBSTANCES] = {
    let mut formulas = [[0; 6]; SUBSTANCES];
    formulas[NH4] = [0, 4, 0, 1, 0, 1];
    formulas[NO2] = [0, 0, 2, 1, 0, -1];
    formulas[NO3] = [0, 0, 3, 1, 0, -1];
    formulas[HPO4] = [0, 1, 4, 0, 1, -2];
    formulas[O2] = [0, 0, 2, 0, 0, 0];
    formulas[HCO3] = [1, 1, 3, 0, 0, -1];
    formulas[H] = [0, 1, 0, 0, 0, 1];
    formulas[XP] = formulas[HPO4];
    formulas[H2O] = [0, 2, 1, 0, 0, 0];
    formulas[N2] = [0, 0, 0, 2, 0, 0];
    formulas
};

/// The least amount of each substance.
pub const LOWEST: [i64; SUBSTANCES] = {
    let mut lowest = [0; SUBSTANCES];
    lowest[H] = -NET_MAX;
    lowest[H2O] = -NET_MAX;
    lowest
};

/// The greatest amount of each substance.
pub const HIGHEST: [i64; SUBSTANCES] = {
    let mut highest = [GRAINS_MAX; SUBSTANCES];
    let organics = [SS, SI, XH, XN1, XN2, XALG, XS, XI];
    let mut i = 0;
    while i < organics.len() {
        highest[organics[i]] = ORGANIC_MAX;
        i += 1;
    }
    highest[H] = NET_MAX;
    highest[H2O] = NET_MAX;
    highest
};

/// Whether all amounts of a cell are in bounds. Every amount is looked at, since
/// the answer is nearly always yes and an early exit would only cost branches.
pub fn in_bounds(amounts: &[i64; SUBSTANCES]) -> bool {
    amounts
        .iter()
        .zip(LOWEST.iter().zip(&HIGHEST))
        .fold(true, |sound, (&amount, (&low, &high))| sound & (low <= amount) & (amount <= high))
}
