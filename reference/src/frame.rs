//! Probe frames: four f32 readings and the oxygen reading become amounts. The
//! readings are whole mantissas with a binary exponent; no step rounds but the
//! last, down to whole µg.

use crate::refusal;
use crate::river::River;
use crate::substances::{W_N, W_O, W_P};

/// The oxygen reading of a frame.
#[derive(Clone, Copy, Debug, PartialEq)]
pub enum Oxygen {
    /// In g/m³.
    Mass(f32),
    /// In hundredths of saturation.
    Percent(f32),
    /// The probe gave none.
    Missing,
}

/// The readings of a probe; the four are in g/m³ of N and P.
#[derive(Clone, Copy, Debug, PartialEq)]
pub struct Frame {
    pub nh4: f32,
    pub no2: f32,
    pub no3: f32,
    pub po4: f32,
    pub oxygen: Oxygen,
}

/// The amounts of a frame, in grains; no oxygen where the reading is missing or
/// the frame refused.
#[derive(Clone, Copy, Debug, Default, PartialEq, Eq)]
pub struct Amounts {
    pub nh4: i64,
    pub no2: i64,
    pub no3: i64,
    pub hpo4: i64,
    pub oxygen: Option<i64>,
}

impl Frame {
    /// The frame as amounts, under a saturation in µg.
    pub fn amounts(&self, saturation: u32) -> (u32, Amounts) {
        if saturation > River::SATURATION_MAX {
            return (refusal::CONDITION, Amounts::default());
        }
        match self.read(saturation) {
            Some(amounts) => (refusal::NONE, amounts),
            None => (refusal::READING, Amounts::default()),
        }
    }

    fn read(&self, saturation: u32) -> Option<Amounts> {
        let mass = |reading, weight| Some(Exact::of(reading)?.times(1_000_000) * weight);
        Some(Amounts {
            nh4: mass(self.nh4, W_N)?,
            no2: mass(self.no2, W_N)?,
            no3: mass(self.no3, W_N)?,
            hpo4: mass(self.po4, W_P)?,
            oxygen: match self.oxygen {
                Oxygen::Mass(reading) => Some(mass(reading, W_O)?),
                Oxygen::Percent(reading) => {
                    Some(Exact::of(reading)?.hundredths_of(saturation) * W_O)
                }
                Oxygen::Missing => None,
            },
        })
    }
}

/// An accepted reading, mantissa / 2^shift exactly. Below 256 the shift is at
/// least 16, so a reading is never shifted up.
struct Exact {
    mantissa: u64,
    shift: u32,
}

impl Exact {
    /// The exact value of a reading from 0 to below 256; −0 is 0.
    fn of(reading: f32) -> Option<Exact> {
        if !(0.0..256.0).contains(&reading) {
            return None;
        }
        let bits = reading.to_bits();
        let exponent = bits >> 23 & 0xff;
        let fraction = u64::from(bits & 0x7f_ffff);
        Some(match exponent {
            // Zero and subnormals have no leading one.
            0 => Exact { mantissa: fraction, shift: 149 },
            _ => Exact { mantissa: fraction | 0x80_0000, shift: 150 - exponent },
        })
    }

    /// value × scale, rounded down.
    fn times(&self, scale: u32) -> i64 {
        self.floor(self.mantissa * u64::from(scale))
    }

    /// value × whole / 100, rounded down. Rounding down by 100 first and by the
    /// power of two after it is the same as one rounding of both.
    fn hundredths_of(&self, whole: u32) -> i64 {
        self.floor(self.mantissa * u64::from(whole) / 100)
    }

    /// A product of the mantissa, below 2^49, over 2^shift, rounded down.
    fn floor(&self, product: u64) -> i64 {
        product.checked_shr(self.shift).unwrap_or(0) as i64
    }
}
