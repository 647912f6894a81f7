//! Checks of a set at each limit and one past it, and the rows: where each may have
//! entries, and that none makes or loses an atom or a charge.

mod common;

use common::{halves, published};
use reference::book::contents_of_all;
use reference::lists::{random_neighbour, random_set, Random};
use reference::substances::*;
use reference::{batch_sizes, check, rows, Fractions, Halves, Rates, Set};

#[test]
fn published_figures() {
    let set = published();
    assert_eq!(set.xalg.to_array(), [360, 70, 500, 60, 10]);
    assert_eq!(set.yields.to_array(), [60, 50, 30, 13, 3, 62, 100]);
    assert_eq!(set.inert.to_array(), [20, 20]);
    assert_eq!(check(&set), 0);
    let sizes = [60, 60, 100, 50, 30, 100, 13, 100, 3, 100, 100, 100, 100, 10_000, 100, 100, 100];
    assert_eq!(batch_sizes(&set), sizes);
}

#[test]
fn published_refuses_constants_out_of_range() {
    for i in 0..15 {
        let mut rates = [0; 15];
        rates[i] = 20_000;
        assert_eq!(Set::published(Rates::from(rates), halves()).0, 0);
        for bad in [20_001, u32::MAX] {
            rates[i] = bad;
            assert_eq!(Set::published(Rates::from(rates), halves()), (2, Set::default()));
        }
    }
    for i in 0..19 {
        for (half, number) in [(1, 0), (100_000_000, 0), (0, 2), (100_000_001, 2)] {
            let mut figures = halves().to_array();
            figures[i] = half;
            let (answer, set) = Set::published(Rates::default(), Halves::from(figures));
            assert_eq!(answer, number);
            assert_eq!(set == Set::default(), number == 2);
        }
    }
}

/// Every figure of a set in turn, with the number of one past its limits.
#[test]
fn limits_of_every_figure() {
    let refused = |change: &dyn Fn(&mut Set)| {
        let mut set = published();
        change(&mut set);
        let number = check(&set);
        let (same, rows) = rows(&set);
        assert_eq!(same, number);
        assert_eq!(number != 0, rows == [0; 306]);
        number
    };
    for i in 0..5 {
        for by in [1, u32::MAX] {
            let shift = |f: &mut Fractions| {
                let mut figures = f.to_array();
                figures[i] = figures[i].wrapping_add(by);
                *f = Fractions::from(figures);
            };
            assert_eq!(refused(&|set| shift(&mut set.ss)), 1);
            assert_eq!(refused(&|set| shift(&mut set.si)), 1);
            assert_eq!(refused(&|set| shift(&mut set.xh)), 1);
            assert_eq!(refused(&|set| shift(&mut set.xn1)), 1);
            assert_eq!(refused(&|set| shift(&mut set.xn2)), 1);
            assert_eq!(refused(&|set| shift(&mut set.xalg)), 1);
            assert_eq!(refused(&|set| shift(&mut set.xs)), 1);
            assert_eq!(refused(&|set| shift(&mut set.xi)), 1);
        }
    }
    for i in 0..7 {
        for bad in [0, 101, u32::MAX] {
            let change = |set: &mut Set| {
                let mut yields = set.yields.to_array();
                yields[i] = bad;
                set.yields = yields.into();
            };
            assert_eq!(refused(&change), 2);
        }
    }
    assert_eq!(refused(&|set| set.inert.bacteria = 101), 2);
    assert_eq!(refused(&|set| set.inert.algae = 101), 2);
    assert_eq!(refused(&|set| set.inert.bacteria = 0), 0);
    assert_eq!(refused(&|set| set.rates.desorption = 20_001), 2);
    assert_eq!(refused(&|set| set.halves.algae_p = 0), 2);
    // 1 comes before 2, in whatever place.
    let both = |set: &mut Set| {
        set.xi.p += 1;
        set.yields.aerobic = 0;
    };
    assert_eq!(refused(&both), 1);
    // A sum that would be 1,000 in 32 bits.
    assert_eq!(refused(&|set| set.xi = Fractions::from([u32::MAX, 1_001, 0, 0, 0])), 1);
}

/// Check 3 at the line: a change of oxygen or an uptake of exactly 0.
#[test]
fn direction() {
    // Hydrolysis of XS to as much SS, the same but for one thousandth: short of
    // carbon, nitrogen or phosphorus, or of oxygen for the rest, or of nothing.
    let moved = [(0, 1, 3), (3, 2, 3), (4, 2, 3), (2, 1, 3), (2, 4, 3), (1, 0, 0), (2, 3, 0)];
    for (from, to, number) in moved {
        let mut set = published();
        let mut figures = set.xs.to_array();
        figures[from] -= 1;
        figures[to] += 1;
        set.xs = Fractions::from(figures);
        assert_eq!(check(&set), number, "{from} to {to}");
    }
    assert_eq!(rows(&published()).1[14 * 18 + O2], 0);
    // Respiration of XN1 to the whole of its own matter changes no oxygen: E is 0.
    let mut set = published();
    set.xi = set.xn1;
    set.inert.bacteria = 100;
    assert_eq!(check(&set), 3);
    set.inert.bacteria = 99;
    assert_eq!(check(&set), 0);
    // Death with all of the mass kept as XS takes up what algae have less of.
    let mut set = published();
    set.yields.death = 100;
    assert_eq!(check(&set), 3);
    // Algae respiring to more carbon than they have.
    let mut set = published();
    set.inert.algae = 100;
    set.yields.death = 1;
    assert_eq!(check(&set), 3);
}

/// Substances a row may change.
fn places(process: usize) -> &'static [usize] {
    match process {
        1 => &[SS, XH, NH4, HPO4, O2, HCO3, H, H2O],
        2 => &[SS, XH, NO3, HPO4, O2, HCO3, H, H2O],
        3 => &[XH, XI, NH4, HPO4, O2, HCO3, H, H2O],
        4 => &[SS, XH, NO3, NO2, HPO4, HCO3, H, H2O],
        5 => &[SS, XH, NO2, N2, HPO4, HCO3, H, H2O],
        6 => &[XH, XI, NH4, NO3, N2, HPO4, HCO3, H, H2O],
        7 => &[XN1, NH4, NO2, HPO4, O2, HCO3, H, H2O],
        8 => &[XN1, XI, NH4, HPO4, O2, HCO3, H, H2O],
        9 => &[XN2, NO2, NO3, HPO4, O2, HCO3, H, H2O],
        10 => &[XN2, XI, NH4, HPO4, O2, HCO3, H, H2O],
        11 => &[XALG, NH4, HPO4, O2, HCO3, H, H2O],
        12 => &[XALG, NO3, HPO4, O2, HCO3, H, H2O],
        13 => &[XALG, XI, NH4, HPO4, O2, HCO3, H, H2O],
        14 => &[XALG, XS, XI, NH4, HPO4, O2, HCO3, H, H2O],
        15 => &[XS, SS, NH4, HPO4, O2, HCO3, H, H2O],
        _ => &[HPO4, XP],
    }
}

/// The organic changes of a row, and what tells apart rows that balance alike.
fn definition(set: &Set, process: usize, row: &[i64]) {
    let y = |y: u32| i64::from(y);
    let f = i64::from(set.inert.bacteria);
    let (yields, algae) = (&set.yields, i64::from(set.inert.algae));
    let nitrogen = |made_of: &Fractions, y: u32| -22_320 * i64::from(made_of.n) * i64::from(y);
    let m = |made_of: &Fractions, y: u32| 22_320 * 100_000 + nitrogen(made_of, y);
    match process {
        1 | 2 => assert_eq!((row[XH], row[SS]), (y(yields.aerobic), -100)),
        3 => assert_eq!((row[XH], row[XI]), (-100, f)),
        4 => assert_eq!((row[XH], row[SS]), (y(yields.nitrate), -100)),
        5 => assert_eq!((row[XH], row[SS]), (y(yields.nitrite), -100)),
        6 => {
            let ammonium = 22_320 * (100 * i64::from(set.xh.n) - f * i64::from(set.xi.n));
            assert_eq!((row[XH], row[XI], row[NH4]), (-100, f, ammonium));
        }
        7 => {
            let oxidised = m(&set.xn1, yields.n1);
            assert_eq!((row[XN1], row[NO2]), (y(yields.n1), oxidised));
            assert_eq!(row[NH4], nitrogen(&set.xn1, yields.n1) - oxidised);
        }
        8 => assert_eq!((row[XN1], row[XI]), (-100, f)),
        9 => {
            let oxidised = m(&set.xn2, yields.n2);
            assert_eq!((row[XN2], row[NO3]), (y(yields.n2), oxidised));
            assert_eq!(row[NO2], nitrogen(&set.xn2, yields.n2) - oxidised);
        }
        10 => assert_eq!((row[XN2], row[XI]), (-100, f)),
        11 | 12 => assert_eq!(row[XALG], 100),
        13 => assert_eq!((row[XALG], row[XI]), (-100, algae)),
        14 => {
            let death = y(yields.death);
            assert_eq!(
                (row[XALG], row[XS], row[XI]),
                (-10_000, death * (100 - algae), death * algae)
            );
        }
        15 => assert_eq!((row[XS], row[SS]), (-100, y(yields.hydrolysis))),
        16 => assert_eq!((row[HPO4], row[XP]), (-1_008_000_000, 1_008_000_000)),
        _ => assert_eq!((row[HPO4], row[XP]), (1_008_000_000, -1_008_000_000)),
    }
}

/// With its organic changes, its places and the balance a row is fixed.
#[test]
fn rows_of_random_sets() {
    let mut random = Random::new(1);
    for _ in 0..2_000 {
        let set = random_set(&mut random);
        let (number, rows) = rows(&set);
        assert_eq!(number, 0);
        for (process, row) in (1..).zip(rows.chunks_exact(18)) {
            for (substance, &entry) in row.iter().enumerate() {
                assert!(entry == 0 || places(process).contains(&substance), "row {process}");
            }
            definition(&set, process, row);
            assert_eq!(contents_of_all(&set, row), [0; 6], "row {process} of {set:?}");
        }
    }
}

/// Sets next to accepted ones: the refused have zeros for rows, and only check 3
/// refuses them.
#[test]
fn neighbours() {
    let mut random = Random::new(2);
    let mut seen = [0; 4];
    for _ in 0..2_000 {
        let set = random_set(&mut random);
        let set = random_neighbour(&mut random, &set);
        let (number, rows) = rows(&set);
        assert_eq!(number, check(&set));
        assert_eq!(number != 0, rows == [0; 306]);
        seen[number as usize] += 1;
    }
    assert!(seen[0] > 50 && seen[3] > 50 && seen[1] + seen[2] == 0, "{seen:?}");
}
