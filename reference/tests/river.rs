//! Fresh rivers, check 4, load, flow, air, letter and totals, at their limits.

mod common;

use common::{filled, fresh, published};
use reference::book::contents_of_all;
use reference::lists::{random_set, Random};
use reference::substances::*;
use reference::{step, totals, River, Set};

#[test]
fn fresh_rivers() {
    for cells in 1..=8 {
        let river = fresh(cells);
        assert_eq!(river, River { cells, amounts: [0; 144], carries: [0; 136] });
        assert_eq!(river.check(), 0);
    }
    for cells in [0, 9, u32::MAX] {
        let (number, river) = River::fresh(cells);
        assert_eq!(number, 4);
        assert_eq!(river, River { cells: 0, amounts: [0; 144], carries: [0; 136] });
        assert_eq!(river.check(), 4);
    }
}

/// Every call on a river out of bounds answers 4 and leaves it.
fn refused_by_all(river: &River) {
    let mut same = river.clone();
    assert_eq!(river.check(), 4);
    assert_eq!(same.load(0, 0, 0), 4);
    assert_eq!(same.flow(10_001), (4, [0; 144]));
    assert_eq!(same.air(0, 0, 0, 0), (4, 0));
    assert_eq!(same.letter(0), (4, 0));
    assert_eq!(totals(&published(), river, 0), (4, [0; 6]));
    assert_eq!(totals(&Set::default(), river, 0), (1, [0; 6]));
    assert_eq!(step(&published(), &mut same, 0, 0, &common::MILD), 4);
    assert_eq!(step(&Set::default(), &mut same, 0, 0, &common::MILD), 1);
    assert_eq!(&same, river);
}

#[test]
fn bounds_of_a_river() {
    for cells in [1, 5, 8] {
        for place in 0..cells as usize * 18 {
            let substance = place % 18;
            for (amount, sound) in [
                (LOWEST[substance], true),
                (HIGHEST[substance], true),
                (LOWEST[substance] - 1, false),
                (HIGHEST[substance] + 1, false),
            ] {
                let mut river = fresh(cells);
                river.amounts[place] = amount;
                assert_eq!(river.check(), if sound { 0 } else { 4 });
                if !sound {
                    refused_by_all(&river);
                }
            }
        }
        for place in 0..136 {
            let mut river = fresh(cells);
            let held = place < cells as usize * 17;
            river.carries[place] = if held { 999_999 } else { 1 };
            assert_eq!(river.check(), if held { 0 } else { 4 });
            river.carries[place] = 1_000_000;
            refused_by_all(&river);
        }
        for place in cells as usize * 18..144 {
            let mut river = fresh(cells);
            river.amounts[place] = 1;
            refused_by_all(&river);
            river.amounts[place] = i64::MIN;
            refused_by_all(&river);
        }
    }
    for cells in [0, 9, u32::MAX] {
        refused_by_all(&River { cells, ..fresh(1) });
    }
}

#[test]
fn loads() {
    for substance in 1..=18 {
        let (low, high) = (LOWEST[substance as usize - 1], HIGHEST[substance as usize - 1]);
        let mut river = fresh(3);
        let place = 18 + substance as usize - 1;
        for (change, number, after) in [
            (high, 0, high),
            (0, 0, high),
            (1, 8, high),
            (i64::MAX, 8, high),
            (-high, 0, 0),
            (low, 0, low),
            (-1, 8, low),
            (i64::MIN, 8, low),
        ] {
            assert_eq!(river.load(2, substance, change), number);
            let mut expected = fresh(3);
            expected.amounts[place] = after;
            assert_eq!(river, expected);
        }
    }
    let mut river = filled(3);
    for (cell, substance) in [(0, 1), (4, 1), (u32::MAX, 1), (1, 0), (1, 19), (1, u32::MAX)] {
        assert_eq!(river.load(cell, substance, i64::MAX), 5);
    }
    assert_eq!(river, filled(3));
}

/// The flow of one amount, in numbers wide enough for the product.
fn passed(amount: i64, part: u32) -> i64 {
    (i128::from(amount) * i128::from(part) / 10_000) as i64
}

#[test]
fn flows() {
    let mut random = Random::new(3);
    for _ in 0..2_000 {
        let cells = random.among(1, 8);
        let mut river = fresh(cells);
        for place in 0..cells as usize * 18 {
            let (low, high) = (LOWEST[place % 18], HIGHEST[place % 18]);
            river.amounts[place] = match random.below(6) {
                0 => low,
                1 => high,
                2 if low < 0 => -(random.scaled(high as u64) as i64),
                _ => random.scaled(high as u64) as i64,
            };
        }
        river.carries[3] = 7;
        let part = [0, 1, 3_333, 9_999, 10_000, random.among(0, 10_000)][random.below(6) as usize];
        let before = river.clone();
        let (number, left) = river.flow(part);
        assert_eq!((number, river.check()), (0, 0));
        assert_eq!(river.carries, before.carries);
        for place in 0..144 {
            assert_eq!(left[place], passed(before.amounts[place], part));
            let held = place < cells as usize * 18;
            let inflow = if held && place >= 18 { left[place - 18] } else { 0 };
            assert_eq!(river.amounts[place], before.amounts[place] - left[place] + inflow);
        }
    }
    let mut river = filled(8);
    assert_eq!(river.flow(10_001), (6, [0; 144]));
    assert_eq!(river.flow(u32::MAX), (6, [0; 144]));
    assert_eq!(river, filled(8));
}

#[test]
fn airs() {
    // Over saturation: −1 µg at the full rate is −0.83, toward zero 0.
    let mut river = fresh(2);
    assert_eq!(river.load(2, 7, 11 * W_O - 1), 0);
    assert_eq!(river.air(2, 20_000, 3_600, 9), (0, 0));
    assert_eq!(river.air(2, 20_000, 3_600, 8), (0, -W_O));
    assert_eq!(river.amounts[18 + O2], 10 * W_O - 1);
    // From the highest amount there is, and to the highest saturation.
    let mut river = fresh(1);
    river.amounts[O2] = GRAINS_MAX;
    let down = -1_024_065_540_i128 * 833_333_333 / 1_000_000_000 * i128::from(W_O);
    assert_eq!(river.air(1, 20_000, 3_600, 0), (0, down as i64));
    let mut river = fresh(1);
    let up = 20_000_000_i64 * 833_333_333 / 1_000_000_000 * W_O;
    assert_eq!(river.air(1, 20_000, 3_600, 20_000_000), (0, up));
    // One second, and a constant of 0.
    assert_eq!(fresh(1).air(1, 86_400 / 5, 1, 20_000_000), (0, 4_000 * W_O));
    assert_eq!(fresh(1).air(1, 0, 1, 20_000_000), (0, 0));

    let mut river = filled(2);
    assert_eq!(river.air(0, 20_001, 0, 0), (5, 0));
    assert_eq!(river.air(3, 1, 1, 1), (5, 0));
    assert_eq!(river.air(1, 20_001, 1, 1), (6, 0));
    assert_eq!(river.air(1, 1, 0, 1), (6, 0));
    assert_eq!(river.air(1, 1, 3_601, 1), (6, 0));
    assert_eq!(river.air(1, 1, 1, 20_000_001), (6, 0));
    assert_eq!(river, filled(2));
}

#[test]
fn letters() {
    let letter = |oxygen, ammonium| {
        let mut river = fresh(2);
        river.amounts[18 + O2] = oxygen;
        river.amounts[18 + NH4] = ammonium;
        river.letter(2)
    };
    assert_eq!(letter(2_000_000 * W_O - 1, 0), (0, b'L'));
    assert_eq!(letter(0, GRAINS_MAX), (0, b'L'));
    assert_eq!(letter(2_000_000 * W_O, 0), (0, b'-'));
    assert_eq!(letter(2_000_000 * W_O, 1_000_001 * W_N - 1), (0, b'-'));
    assert_eq!(letter(2_000_000 * W_O, 1_000_001 * W_N), (0, b'N'));
    assert_eq!(fresh(2).letter(0), (5, 0));
    assert_eq!(fresh(2).letter(3), (5, 0));
}

#[test]
fn totals_at_the_bounds() {
    let mut random = Random::new(4);
    for round in 0..500 {
        let mut set = random_set(&mut random);
        if round == 0 {
            set = published();
        }
        let mut river = fresh(2);
        for place in 18..36 {
            let (low, high) = (LOWEST[place - 18], HIGHEST[place - 18]);
            river.amounts[place] = match round % 4 {
                0 => high,
                1 => low,
                _ if random.once_in(2) => low,
                _ => random.scaled(high as u64) as i64,
            };
        }
        let (number, totals) = totals(&set, &river, 2);
        assert_eq!(number, 0);
        assert_eq!(totals.map(i128::from), contents_of_all(&set, &river.amounts[18..36]));
    }
    let mut refused = published();
    refused.yields.n1 = 0;
    assert_eq!(totals(&refused, &fresh(1), 9), (2, [0; 6]));
    assert_eq!(totals(&published(), &fresh(1), 2), (5, [0; 6]));
    assert_eq!(totals(&published(), &fresh(1), 0), (5, [0; 6]));
}
