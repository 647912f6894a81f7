//! The cases checked by hand.

mod common;

use common::{filled, fresh, published, with_rates, MILD};
use reference::extents::{inhibition, monod};
use reference::substances::*;
use reference::{check, rows, step, Fractions, Frame, Oxygen};

fn row(number: usize) -> [i64; 18] {
    let (refused, rows) = rows(&published());
    assert_eq!(refused, 0);
    rows[18 * (number - 1)..18 * number].try_into().unwrap()
}

#[test]
fn row_1() {
    let mut expected = [0; 18];
    expected[XH] = 60;
    expected[SS] = -100;
    expected[NH4] = -26_784_000;
    expected[HPO4] = -8_064_000;
    expected[O2] = -804_879_000;
    expected[HCO3] = 671_832_000;
    expected[H] = 682_488_000;
    expected[H2O] = -119_592_000;
    assert_eq!(row(1), expected);
}

#[test]
fn row_6() {
    let row = row(6);
    assert_eq!((row[NO3], row[N2], row[H]), (-965_589_600, 482_794_800, -127_197_600));
    assert_eq!((row[XH], row[XI], row[O2], row[NO2]), (-100, 20, 0, 0));
}

#[test]
fn monod_factor() {
    assert_eq!(monod(100, 200), 333_333);
    assert_eq!(inhibition(100, 200), 666_666);
    assert_eq!((monod(0, 1), inhibition(0, 1)), (0, 1_000_000));
}

#[test]
fn hydrolysis() {
    let set = with_rates(|rates| rates.hydrolysis = 3_000);
    let mut river = fresh(1);
    assert_eq!(river.load(1, 14, 1_000_000), 0);
    assert_eq!(step(&set, &mut river, 3_600, 0, &MILD), 0);
    assert_eq!((river.amounts[XS], river.amounts[SS], river.carries[14]), (875_000, 125_000, 0));
    assert_eq!(step(&set, &mut river, 3_600, 0, &MILD), 0);
    assert_eq!((river.amounts[XS], river.carries[14]), (765_700, 750_000));
    let others = (0..18).filter(|&i| i != XS && i != SS).all(|i| river.amounts[i] == 0);
    assert!(others && river.amounts[SS] == 234_300);
}

#[test]
fn flow_of_half() {
    let mut river = fresh(1);
    assert_eq!(river.load(1, 1, 10_001), 0);
    assert_eq!(river.load(1, 9, -3), 0);
    let (number, left) = river.flow(5_000);
    assert_eq!((number, left[SS], left[H]), (0, 5_000, -1));
    assert_eq!((river.amounts[SS], river.amounts[H]), (5_001, -2));
    assert!(left[18..].iter().all(|&amount| amount == 0));
}

#[test]
fn air() {
    let mut river = fresh(1);
    assert_eq!(river.air(1, 2_000, 3_600, 10_000_000), (0, 8_137_496_745_000));
    assert_eq!(river.amounts[O2], 8_137_496_745_000);
}

#[test]
fn readings() {
    let frame = Frame { nh4: 0.7, no2: 0.5, no3: 0.7, po4: 0.5, oxygen: Oxygen::Mass(0.7) };
    let (number, amounts) = frame.amounts(0);
    assert_eq!(number, 0);
    assert_eq!((amounts.nh4, amounts.no2), (699_999 * W_N, 500_000 * W_N));
    assert_eq!((amounts.no3, amounts.hpo4), (699_999 * W_N, 500_000 * W_P));
    assert_eq!(amounts.oxygen, Some(699_999 * W_O));
}

#[test]
fn refusals() {
    let mut set = published();
    set.ss = Fractions::from([0, 0, 1_000, 0, 0]);
    assert_eq!(check(&set), 3);
    let mut set = published();
    set.ss.c -= 1;
    assert_eq!(check(&set), 1);
    let mut river = filled(1);
    assert_eq!(step(&published(), &mut river, 3_601, 0, &MILD), 6);
    let mut still = fresh(1);
    assert_eq!(step(&published(), &mut still, 3_600, 0, &MILD), 0);
}
