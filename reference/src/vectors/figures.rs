//! The figures of a set as one list, in the order of its fields.

use crate::sets::{Fractions, Halves, Inert, Rates, Set, Yields};

/// Figures of a set: five fractions of each of eight organics, 7 yields, 2 inert
/// fractions, 15 rate constants, 19 half-saturations.
pub const FIGURES: usize = 83;
/// Where the yields, inert fractions, rate constants and half-saturations begin.
pub const YIELDS: usize = 40;
pub const INERT: usize = 47;
pub const RATES: usize = 49;
pub const HALVES: usize = 64;

/// A set of its figures, in the order of the fields.
pub fn set_of(figures: &[u32; FIGURES]) -> Set {
    let fractions = |organic: usize| {
        let [c, h, o, n, p] = std::array::from_fn(|element| figures[organic * 5 + element]);
        Fractions { c, h, o, n, p }
    };
    Set {
        ss: fractions(0),
        si: fractions(1),
        xh: fractions(2),
        xn1: fractions(3),
        xn2: fractions(4),
        xalg: fractions(5),
        xs: fractions(6),
        xi: fractions(7),
        yields: Yields::from(std::array::from_fn(|i| figures[YIELDS + i])),
        inert: Inert::from(std::array::from_fn(|i| figures[INERT + i])),
        rates: Rates::from(std::array::from_fn(|i| figures[RATES + i])),
        halves: Halves::from(std::array::from_fn(|i| figures[HALVES + i])),
    }
}

/// The figures of a set.
pub fn figures_of(set: &Set) -> [u32; FIGURES] {
    let mut figures = Vec::with_capacity(FIGURES);
    set.organics().iter().for_each(|(_, fractions)| figures.extend(fractions.to_array()));
    figures.extend(set.yields.to_array());
    figures.extend(set.inert.to_array());
    figures.extend(set.rates.to_array());
    figures.extend(set.halves.to_array());
    figures.try_into().expect("eight organics and four groups have 83 figures")
}
