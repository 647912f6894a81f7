//! Check 3 against its conditions written out one by one, on accepted sets and
//! sets a move away from them.

use reference::lists::{random_neighbour, random_set, Random};
use reference::vectors::uptakes::{least_uptakes, no_uptakes};
use reference::{check, rows, Fractions, Set};

/// Thousandth-µg of an element released by some organic changes.
fn released(changes: &[(i64, Fractions)], element: usize) -> i64 {
    -changes
        .iter()
        .map(|(change, made_of)| change * i64::from(made_of.to_array()[element]))
        .sum::<i64>()
}

/// The change of O2 on closure, with nitrogen as ammonium.
fn oxygen(changes: &[(i64, Fractions)]) -> i64 {
    let [c, h, o, n, p] = std::array::from_fn(|element| released(changes, element));
    9_765 * o - 26_040 * c - 78_120 * h + 16_740 * n - 12_600 * p
}

/// Whether each condition of check 3 holds: E of 1 to 10 and 13, then the uptake
/// of NH4, HPO4, O2 and HCO3 in 14 and in 15.
fn conditions(set: &Set) -> [bool; 19] {
    let ([aerobic, nitrate, nitrite, n1, n2, death, hydrolysis], [f, algae]) =
        (set.yields.to_array().map(i64::from), set.inert.to_array().map(i64::from));
    let growth = |y| [(y, set.xh), (-100, set.ss)];
    let decay = |made_of, f| oxygen(&[(-100, made_of), (f, set.xi)]);
    let a = |changes: &[(i64, Fractions)]| 22_320 * released(changes, 3);
    let m = |y: i64, made_of: Fractions| 22_320 * (100_000 - y * i64::from(made_of.n));
    let (first, second) = ([(n1, set.xn1)], [(n2, set.xn2)]);
    let e = [
        oxygen(&growth(aerobic)),
        oxygen(&growth(aerobic)) - 2 * a(&growth(aerobic)),
        decay(set.xh, f),
        oxygen(&growth(nitrate)) - 2 * a(&growth(nitrate)),
        oxygen(&growth(nitrite)) - 3 * a(&growth(nitrite)) / 2,
        decay(set.xh, f),
        oxygen(&first) - 3 * m(n1, set.xn1) / 2,
        decay(set.xn1, f),
        oxygen(&second) - 3 * a(&second) / 2 - m(n2, set.xn2) / 2,
        decay(set.xn2, f),
        decay(set.xalg, algae),
    ];
    let death = [(-10_000, set.xalg), (death * (100 - algae), set.xs), (death * algae, set.xi)];
    let hydrolysis = [(-100, set.xs), (hydrolysis, set.ss)];
    let mut holds = [false; 19];
    for (hold, e) in holds.iter_mut().zip(e) {
        *hold = e >= 0;
    }
    for (i, changes) in [&death[..], &hydrolysis[..]].into_iter().enumerate() {
        let uptakes =
            [released(changes, 3), released(changes, 4), oxygen(changes), released(changes, 0)];
        for (hold, uptake) in holds[11 + 4 * i..].iter_mut().zip(uptakes) {
            *hold = uptake < 0;
        }
    }
    holds
}

#[test]
fn each_condition() {
    let mut random = Random::new(8);
    // How often a condition refused a set that no other did. Processes 3 and 6
    // have one E, so they count as one.
    let mut alone = [0; 19];
    for _ in 0..2_000 {
        let accepted = random_set(&mut random);
        for _ in 0..30 {
            let set = random_neighbour(&mut random, &accepted);
            let mut holds = conditions(&set);
            assert_eq!(check(&set), if holds.contains(&true) { 3 } else { 0 }, "{set:?}");
            assert_eq!(rows(&set).0, check(&set));
            holds[5] = false;
            if let (Some(i), 1) =
                (holds.iter().position(|&h| h), holds.iter().filter(|&&h| h).count())
            {
                alone[i] += 1;
            }
        }
    }
    assert!(alone.iter().enumerate().all(|(i, &count)| i == 5 || count > 0), "{alone:?}");
}

#[test]
fn the_least_uptake_of_one_substance_is_refused() {
    for (place, set) in (11..).zip(least_uptakes()) {
        let holding: Vec<usize> = (0..19).filter(|&i| conditions(&set)[i]).collect();
        assert_eq!((check(&set), holding), (3, vec![place]));
    }
    for set in no_uptakes() {
        assert_eq!((check(&set), conditions(&set)), (0, [false; 19]));
    }
}
