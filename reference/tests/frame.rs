//! Probe frames: exact values, refusals and their order.

use reference::lists::Random;
use reference::substances::{W_N, W_O, W_P};
use reference::{Amounts, Frame, Oxygen};

const QUIET: Frame = Frame { nh4: 0.0, no2: 0.0, no3: 0.0, po4: 0.0, oxygen: Oxygen::Missing };

/// The greatest f32 below 256.
fn highest() -> f32 {
    f32::from_bits(256_f32.to_bits() - 1)
}

#[test]
fn missing_gives_no_amount() {
    let none = Amounts { nh4: 0, no2: 0, no3: 0, hpo4: 0, oxygen: None };
    assert_eq!(QUIET.amounts(0), (0, none));
    let zero = Amounts { oxygen: Some(0), ..none };
    assert_eq!(Frame { oxygen: Oxygen::Mass(0.0), ..QUIET }.amounts(0), (0, zero));
    assert_eq!(Frame { oxygen: Oxygen::Percent(50.0), ..QUIET }.amounts(0), (0, zero));
}

/// Each reading goes to its own substance with its own weight.
#[test]
fn places() {
    let frame = Frame { nh4: 1.0, no2: 2.0, no3: 3.0, po4: 4.0, oxygen: Oxygen::Mass(5.0) };
    let expected = Amounts {
        nh4: 1_000_000 * W_N,
        no2: 2_000_000 * W_N,
        no3: 3_000_000 * W_N,
        hpo4: 4_000_000 * W_P,
        oxygen: Some(5_000_000 * W_O),
    };
    assert_eq!(frame.amounts(20_000_000), (0, expected));
    let frame = Frame { oxygen: Oxygen::Percent(5.0), ..frame };
    let expected = Amounts { oxygen: Some(1_000_000 * W_O), ..expected };
    assert_eq!(frame.amounts(20_000_000), (0, expected));
}

#[test]
fn refused_readings() {
    let bad = [
        256.0,
        257.0,
        f32::MAX,
        f32::INFINITY,
        f32::NEG_INFINITY,
        f32::NAN,
        -f32::NAN,
        -1.0,
        f32::from_bits(0x8000_0001),
        -f32::MIN_POSITIVE,
    ];
    let good = [0.0, -0.0, f32::from_bits(1), f32::MIN_POSITIVE, 1.0, highest()];
    for (readings, number) in [(&bad[..], 9), (&good[..], 0)] {
        for &r in readings {
            for frame in [
                Frame { nh4: r, ..QUIET },
                Frame { no2: r, ..QUIET },
                Frame { no3: r, ..QUIET },
                Frame { po4: r, ..QUIET },
                Frame { oxygen: Oxygen::Mass(r), ..QUIET },
                Frame { oxygen: Oxygen::Percent(r), ..QUIET },
            ] {
                let (answer, amounts) = frame.amounts(20_000_000);
                assert_eq!(answer, number, "{frame:?}");
                assert!(number == 0 || amounts == Amounts::default());
                // 6 comes before 9, whatever the oxygen reading is.
                assert_eq!(frame.amounts(20_000_001), (6, Amounts::default()));
            }
        }
    }
    assert_eq!(QUIET.amounts(20_000_001), (6, Amounts::default()));
    assert_eq!(QUIET.amounts(u32::MAX), (6, Amounts::default()));
}

/// Against f64, which holds a reading times 25 more bits exactly.
#[test]
fn exact_floors() {
    let mut random = Random::new(6);
    let top = u64::from(256_f32.to_bits());
    let special = [0.0, -0.0, f32::from_bits(1), f32::MIN_POSITIVE, highest(), 1e-6, 0.7, 99.99];
    for round in 0..200_000 {
        let reading = match special.get(round) {
            Some(&reading) => reading,
            None if random.once_in(2) => f32::from_bits(random.below(top) as u32),
            None => f32::from_bits(top as u32 - 1 - random.below(1 << 28) as u32),
        };
        let saturation = match random.below(4) {
            0 => 20_000_000,
            1 => random.scaled(20_000_000) as u32,
            _ => random.among(0, 20_000_000),
        };
        let exact = f64::from(reading);
        let mass = (exact * 1e6).floor() as i64;
        let percent = ((exact * f64::from(saturation)).floor() as i64) / 100;
        let frame = Frame { nh4: reading, po4: reading, oxygen: Oxygen::Mass(reading), ..QUIET };
        let (number, amounts) = frame.amounts(saturation);
        assert_eq!((number, amounts.nh4, amounts.hpo4), (0, mass * W_N, mass * W_P));
        assert_eq!(amounts.oxygen, Some(mass * W_O));
        let frame = Frame { oxygen: Oxygen::Percent(reading), ..QUIET };
        assert_eq!(frame.amounts(saturation).1.oxygen, Some(percent * W_O));
    }
}
