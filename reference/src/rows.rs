//! The 17 rows: what one batch of each process changes. A row begins with its
//! organic changes; closure sends the elements they release to the dissolved
//! substances, and the nitrogen form, oxidised nitrogen and acceptor follow.

use crate::refusal;
use crate::sets::{Fractions, Set};
use crate::substances::*;

/// Processes, and so rows and carries of a cell.
pub const PROCESSES: usize = 17;

/// One row: the change of each substance per batch.
pub(crate) type Entries = [i64; SUBSTANCES];
/// All rows.
pub(crate) type Rows = [Entries; PROCESSES];

/// 100 µg of phosphorus, in grains: the batch of 16 and 17.
const SORBED: i64 = 100 * W_P;

/// The number of a set and its rows, row after row; zeros if it is refused.
pub fn rows(set: &Set) -> (u32, [i64; PROCESSES * SUBSTANCES]) {
    let mut flat = [0; PROCESSES * SUBSTANCES];
    let (split, _) = flat.as_chunks_mut();
    let rows: &mut Rows = split.try_into().expect("306 entries are 17 rows of 18");
    let number = fill(set, rows);
    (number, flat)
}

/// The batch size of each process: the µg by which its organic changes.
pub fn batch_sizes(set: &Set) -> [u32; PROCESSES] {
    let mut sizes = [100; PROCESSES];
    sizes[0] = set.yields.aerobic;
    sizes[1] = set.yields.aerobic;
    sizes[3] = set.yields.nitrate;
    sizes[4] = set.yields.nitrite;
    sizes[6] = set.yields.n1;
    sizes[8] = set.yields.n2;
    sizes[13] = 10_000;
    sizes
}

/// Checks the set (1 to 3) and fills in its rows. A refused set leaves zeros.
pub(crate) fn fill(set: &Set, rows: &mut Rows) -> u32 {
    let number = set.check_figures();
    if number != refusal::NONE {
        *rows = [[0; SUBSTANCES]; PROCESSES];
        return number;
    }
    let growth =
        |x: usize, made_of, y: u32| close(&[(x, i64::from(y), made_of), (SS, -100, &set.ss)]);
    let decay =
        |x: usize, made_of, f: u32| close(&[(x, -100, made_of), (XI, i64::from(f), &set.xi)]);
    let Set { yields, inert, .. } = set;

    // The rows up to the acceptor, where check 3 looks at E.
    rows[0] = growth(XH, &set.xh, yields.aerobic);
    rows[1] = as_nitrate(rows[0]);
    rows[2] = decay(XH, &set.xh, inert.bacteria);
    rows[3] = as_nitrate(growth(XH, &set.xh, yields.nitrate));
    rows[4] = as_nitrite(growth(XH, &set.xh, yields.nitrite));
    rows[5] = rows[2];
    rows[6] = close(&[(XN1, i64::from(yields.n1), &set.xn1)]);
    oxidise_ammonium(&mut rows[6], oxidised(yields.n1, &set.xn1));
    rows[7] = decay(XN1, &set.xn1, inert.bacteria);
    rows[8] = as_nitrite(close(&[(XN2, i64::from(yields.n2), &set.xn2)]));
    oxidise_nitrite(&mut rows[8], oxidised(yields.n2, &set.xn2));
    rows[9] = decay(XN2, &set.xn2, inert.bacteria);
    rows[10] = close(&[(XALG, 100, &set.xalg)]);
    rows[11] = as_nitrate(rows[10]);
    rows[12] = decay(XALG, &set.xalg, inert.algae);
    let (y, f) = (i64::from(yields.death), i64::from(inert.algae));
    rows[13] =
        close(&[(XALG, -10_000, &set.xalg), (XS, y * (100 - f), &set.xs), (XI, y * f, &set.xi)]);
    rows[14] = close(&[(XS, -100, &set.xs), (SS, i64::from(yields.hydrolysis), &set.ss)]);
    rows[15] = [0; SUBSTANCES];
    rows[15][HPO4] = -SORBED;
    rows[15][XP] = SORBED;
    rows[16] = rows[15].map(|entry| -entry);

    let consumes = rows[..10].iter().chain([&rows[12]]).all(|row| row[O2] < 0);
    let releases =
        rows[13..15].iter().all(|row| [NH4, HPO4, O2, HCO3].iter().all(|&s| row[s] >= 0));
    if !(consumes && releases) {
        *rows = [[0; SUBSTANCES]; PROCESSES];
        return refusal::DIRECTION;
    }

    nitrate_to_nitrite(&mut rows[3]);
    nitrite_to_nitrogen(&mut rows[4]);
    nitrate_to_nitrogen(&mut rows[5]);
    refusal::NONE
}

/// The row of some organic changes, closed with nitrogen as ammonium.
#[inline(always)]
fn close(changes: &[(usize, i64, &Fractions)]) -> Entries {
    let mut row = [0; SUBSTANCES];
    // Thousandth-µg of each element released.
    let (mut c, mut h, mut o, mut n, mut p) = (0, 0, 0, 0, 0);
    for &(substance, change, made_of) in changes {
        row[substance] = change;
        c -= change * i64::from(made_of.c);
        h -= change * i64::from(made_of.h);
        o -= change * i64::from(made_of.o);
        n -= change * i64::from(made_of.n);
        p -= change * i64::from(made_of.p);
    }
    row[NH4] = 22_320 * n;
    row[HPO4] = 10_080 * p;
    row[HCO3] = 26_040 * c;
    row[H] = 26_040 * c + 20_160 * p - 22_320 * n;
    row[H2O] = 156_240 * h - 26_040 * c - 33_480 * n - 15_120 * p;
    row[O2] = 9_765 * o - 26_040 * c - 78_120 * h + 16_740 * n - 12_600 * p;
    row
}

/// The closed row with its nitrogen as nitrate.
fn as_nitrate(mut row: Entries) -> Entries {
    let a = std::mem::take(&mut row[NH4]);
    row[NO3] = a;
    row[O2] -= 2 * a;
    row[H2O] += a;
    row[H] += 2 * a;
    row
}

/// The closed row with its nitrogen as nitrite.
fn as_nitrite(mut row: Entries) -> Entries {
    let a = std::mem::take(&mut row[NH4]);
    row[NO2] = a;
    // a is a multiple of 22,320, so half of it is whole.
    row[O2] -= 3 * (a / 2);
    row[H2O] += a;
    row[H] += 2 * a;
    row
}

/// m: what a nitrifier's batch oxidises for energy, beside what it takes in.
fn oxidised(y: u32, made_of: &Fractions) -> i64 {
    22_320 * (100_000 - i64::from(y) * i64::from(made_of.n))
}

/// Oxidises m of ammonium to nitrite; m is a multiple of 22,320.
fn oxidise_ammonium(row: &mut Entries, m: i64) {
    row[NH4] -= m;
    row[NO2] += m;
    row[O2] -= 3 * (m / 2);
    row[H2O] += m;
    row[H] += 2 * m;
}

/// Oxidises m of nitrite to nitrate.
fn oxidise_nitrite(row: &mut Entries, m: i64) {
    row[NO2] -= m;
    row[NO3] += m;
    row[O2] -= m / 2;
}

// The acceptors put something else in the place of the oxygen change E. Every term
// of E is a multiple of 15, so the thirds and fifths below are whole.

fn nitrate_to_nitrite(row: &mut Entries) {
    let e = std::mem::take(&mut row[O2]);
    row[NO3] += 2 * e;
    row[NO2] -= 2 * e;
}

fn nitrite_to_nitrogen(row: &mut Entries) {
    let third = std::mem::take(&mut row[O2]) / 3;
    row[NO2] += 4 * third;
    row[H] += 4 * third;
    row[N2] -= 2 * third;
    row[H2O] -= 2 * third;
}

fn nitrate_to_nitrogen(row: &mut Entries) {
    let fifth = std::mem::take(&mut row[O2]) / 5;
    row[NO3] += 4 * fifth;
    row[H] += 4 * fifth;
    row[N2] -= 2 * fifth;
    row[H2O] -= 2 * fifth;
}
