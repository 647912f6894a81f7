//! Parameter sets: what the organics are made of, yields, inert fractions, rate
//! constants and half-saturations, and the checks 1 to 3 of a set.

use crate::refusal;
use crate::rows;
use crate::substances::{SI, SS, XALG, XH, XI, XN1, XN2, XS};

/// A struct of named figures that is also made from, and read as, an array in the
/// order of its fields.
macro_rules! figures {
    ($(#[$doc:meta])* $name:ident[$count:literal] { $($(#[$note:meta])* $field:ident),+ $(,)? }) => {
        $(#[$doc])*
        #[derive(Clone, Copy, Debug, Default, PartialEq, Eq)]
        pub struct $name {
            $($(#[$note])* pub $field: u32),+
        }

        impl From<[u32; $count]> for $name {
            fn from([$($field),+]: [u32; $count]) -> Self {
                Self { $($field),+ }
            }
        }

        impl $name {
            /// The figures in the order of the fields.
            pub const fn to_array(&self) -> [u32; $count] {
                [$(self.$field),+]
            }
        }
    };
}
pub(crate) use figures;

figures! {
    /// Mass fractions of an organic, in thousandths.
    Fractions[5] { c, h, o, n, p }
}

figures! {
    /// Yields, in hundredths.
    Yields[7] {
        /// XH on oxygen (1, 2).
        aerobic,
        /// XH on nitrate (4).
        nitrate,
        /// XH on nitrite (5).
        nitrite,
        /// First stage nitrifiers (7).
        n1,
        /// Second stage nitrifiers (9).
        n2,
        /// Death of algae (14).
        death,
        /// Hydrolysis (15).
        hydrolysis,
    }
}

figures! {
    /// Inert fractions, in hundredths.
    Inert[2] {
        /// Of XH, XN1 and XN2 (3, 6, 8, 10).
        bacteria,
        /// Of XALG (13, 14).
        algae,
    }
}

figures! {
    /// Rate constants, in thousandths per day.
    Rates[15] {
        /// 1 and 2.
        aerobic_growth,
        /// 3.
        aerobic_respiration,
        /// 4 and 5.
        anoxic_growth,
        /// 6.
        anoxic_respiration,
        /// 7.
        n1_growth,
        /// 8.
        n1_respiration,
        /// 9.
        n2_growth,
        /// 10.
        n2_respiration,
        /// 11.
        algae_growth_ammonium,
        /// 12.
        algae_growth_nitrate,
        /// 13.
        algae_respiration,
        /// 14.
        algae_death,
        /// 15.
        hydrolysis,
        /// 16.
        adsorption,
        /// 17.
        desorption,
    }
}

figures! {
    /// Half-saturations, in µg.
    Halves[19] {
        aerobic_ss,
        aerobic_o2,
        aerobic_nitrogen,
        aerobic_p,
        anoxic_ss,
        anoxic_o2,
        anoxic_no3,
        anoxic_no2,
        anoxic_p,
        n1_o2,
        n1_nh4,
        n1_p,
        n2_o2,
        n2_no2,
        n2_p,
        algae_o2,
        algae_nitrogen,
        algae_nh4,
        algae_p,
    }
}

/// A parameter set.
#[derive(Clone, Copy, Debug, Default, PartialEq, Eq)]
pub struct Set {
    pub ss: Fractions,
    pub si: Fractions,
    pub xh: Fractions,
    pub xn1: Fractions,
    pub xn2: Fractions,
    pub xalg: Fractions,
    pub xs: Fractions,
    pub xi: Fractions,
    pub yields: Yields,
    pub inert: Inert,
    pub rates: Rates,
    pub halves: Halves,
}

impl Set {
    /// The most a rate constant may be.
    pub const RATE_MAX: u32 = 20_000;
    /// The most a half-saturation may be, in µg.
    pub const HALF_MAX: u32 = 100_000_000;

    /// The published fractions, yields and inert fractions with the caller's rate
    /// constants and half-saturations. With one of those out of range the number
    /// is 2 and the set all zeros.
    pub fn published(rates: Rates, halves: Halves) -> (u32, Set) {
        if !in_range(&rates, &halves) {
            return (refusal::FIGURE, Set::default());
        }
        let substrate = Fractions::from([570, 80, 280, 60, 10]);
        let inert = Fractions::from([610, 70, 280, 30, 10]);
        let bacteria = Fractions::from([520, 80, 250, 120, 30]);
        let set = Set {
            ss: substrate,
            si: inert,
            xh: bacteria,
            xn1: bacteria,
            xn2: bacteria,
            xalg: Fractions::from([360, 70, 500, 60, 10]),
            xs: substrate,
            xi: inert,
            yields: Yields::from([60, 50, 30, 13, 3, 62, 100]),
            inert: Inert { bacteria: 20, algae: 20 },
            rates,
            halves,
        };
        (refusal::NONE, set)
    }

    /// The organics of the set, by their places in a cell.
    pub const fn organics(&self) -> [(usize, &Fractions); 8] {
        [
            (SS, &self.ss),
            (SI, &self.si),
            (XH, &self.xh),
            (XN1, &self.xn1),
            (XN2, &self.xn2),
            (XALG, &self.xalg),
            (XS, &self.xs),
            (XI, &self.xi),
        ]
    }

    /// Checks 1 and 2, which look at the figures alone. The rows may be made only
    /// of a set that passes them: then no entry can overflow.
    pub(crate) fn check_figures(&self) -> u32 {
        // Fractions are any 32-bit numbers here, so their sum needs more.
        let whole =
            |f: &Fractions| f.to_array().iter().map(|&x| u64::from(x)).sum::<u64>() == 1_000;
        if !self.organics().iter().all(|(_, fractions)| whole(fractions)) {
            return refusal::FRACTIONS;
        }
        let figures_hold = self.yields.to_array().iter().all(|y| (1..=100).contains(y))
            && self.inert.to_array().iter().all(|&f| f <= 100)
            && in_range(&self.rates, &self.halves);
        if figures_hold {
            refusal::NONE
        } else {
            refusal::FIGURE
        }
    }
}

/// Whether rate constants and half-saturations are in range.
fn in_range(rates: &Rates, halves: &Halves) -> bool {
    rates.to_array().iter().all(|&k| k <= Set::RATE_MAX)
        && halves.to_array().iter().all(|k| (1..=Set::HALF_MAX).contains(k))
}

/// The check of a set: 1, 2, 3, or 0 if it is accepted.
pub fn check(set: &Set) -> u32 {
    rows::fill(set, &mut [[0; 18]; 17])
}
