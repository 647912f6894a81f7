//! Sets: every figure at its limits and past them, several faults at once, and
//! walks through sets that pass checks 1 and 2, on both sides of check 3.

use super::figures::{figures_of, FIGURES, HALVES, INERT, RATES, YIELDS};
use super::scene::Scene;
use super::uptakes::{least_uptakes, no_uptakes};
use crate::lists::{random_halves, random_neighbour, random_rates};
use crate::sets::{Fractions, Halves, Rates, Set};

/// Temperature factors of one.
pub const MILD: [u32; 5] = [1_000_000; 5];

/// The published set with every process running, each at its own rate, and with
/// half-saturations that all differ.
pub fn published() -> Set {
    let rates =
        [2_000, 211, 1_603, 107, 809, 53, 1_109, 59, 2_003, 1_997, 101, 103, 3_001, 503, 401];
    let halves = std::array::from_fn(|i| 100_003 + 17_011 * i as u32);
    Set::published(Rates::from(rates), Halves::from(halves)).1
}

/// Values of a figure at its limits and past them.
fn edges(place: usize, value: u32) -> Vec<u32> {
    match place {
        0..YIELDS => vec![0, value - 1, value + 1, 1_000, 1_001, u32::MAX],
        YIELDS..INERT => vec![0, 1, 100, 101, u32::MAX],
        INERT..RATES => vec![0, 1, 100, 101, u32::MAX],
        RATES..HALVES => vec![0, 1, 20_000, 20_001, u32::MAX],
        _ => vec![0, 1, 100_000_000, 100_000_001, u32::MAX],
    }
}

/// Makes each call that looks at a set, each with the same changes of figures.
fn all_calls(scene: &mut Scene, changes: &[(usize, u32)]) {
    let calls: [fn(&mut Scene) -> u32; 5] = [
        Scene::check,
        Scene::rows,
        Scene::published,
        |scene| scene.step(60, 500_000, MILD),
        |scene| scene.totals(1),
    ];
    for call in calls {
        changes.iter().for_each(|&(place, value)| scene.figure(place, value));
        call(scene);
    }
}

pub fn limits(scene: &mut Scene) {
    let set = published();
    scene.begin(&set);
    scene.fresh(1);
    scene.load(1, 14, 1_000_000);
    all_calls(scene, &[]);
    let figures = figures_of(&set);
    for place in 0..FIGURES {
        for value in edges(place, figures[place]) {
            all_calls(scene, &[(place, value)]);
        }
    }
    several_faults(scene, &figures);
    nothing_left_over(scene);
    zero_entries(scene);
    uptakes(scene);
}

/// The first fault in checking order is told; sums do not wrap at 32 bits.
fn several_faults(scene: &mut Scene, figures: &[u32; FIGURES]) {
    for organic in 0..8 {
        let place = organic * 5;
        let half = 1 << 31;
        all_calls(scene, &[(place, half + figures[place]), (place + 1, half + figures[place + 1])]);
        all_calls(
            scene,
            &[(place, u32::MAX), (place + 1, figures[place] + figures[place + 1] + 1)],
        );
        all_calls(scene, &[(place, figures[place] + 1), (YIELDS, 0)]);
        all_calls(scene, &[(place, figures[place] + 1), (HALVES + 18, 0)]);
        // Thousandths moved between elements: still a sum of 1,000.
        for to in 1..5 {
            all_calls(scene, &[(place, 0), (place + to, figures[place] + figures[place + to])]);
        }
    }
    // SS all oxygen, with and without a fault of check 2.
    let oxygen = [(0, 0), (1, 0), (2, 1_000), (3, 0), (4, 0)];
    all_calls(scene, &oxygen);
    let mut both = oxygen.to_vec();
    both.push((RATES + 14, 20_001));
    all_calls(scene, &both);
    // A wrong set comes before a wrong river and wrong conditions.
    for (place, value) in [(0, 571), (YIELDS + 6, 101), (2, 281)] {
        scene.figure(place, value);
        scene.cells(9);
        scene.step(0, 1_000_001, MILD);
        scene.figure(place, value);
        scene.cells(0);
        scene.totals(0);
    }
}

/// Respiration that leaves everything as inert matter has E = 0, which is refused;
/// with one hundredth less it is not. Both inert fractions, for all four organisms.
fn nothing_left_over(scene: &mut Scene) {
    let base = published();
    for (made_of, inert) in [(base.xh, 0), (base.xalg, 1)] {
        let set = Set { xi: made_of, ..base };
        scene.begin(&set);
        scene.fresh(1);
        for f in [0, 98, 99, 100] {
            all_calls(scene, &[(INERT + inert, f)]);
            all_calls(scene, &[(INERT, f), (INERT + 1, f)]);
        }
    }
    // Death and hydrolysis, with what they release at zero and just below it.
    for organic in [0, 5, 6, 7] {
        let figures = figures_of(&base);
        for element in 0..5 {
            let place = organic * 5 + element;
            let other = organic * 5 + (element + 1) % 5;
            all_calls(scene, &[(place, figures[place] + 1), (other, figures[other] - 1)]);
        }
    }
}

/// Sets in which nitrogen or phosphorus of a growth row is zero or released.
pub fn zero_entries_sets() -> Vec<Set> {
    let base = published();
    let with_yield = |set: Set, aerobic, nitrate, nitrite| {
        let mut set = set;
        set.yields.aerobic = aerobic;
        set.yields.nitrate = nitrate;
        set.yields.nitrite = nitrite;
        set
    };
    let phosphorus = Set { xh: Fractions::from([530, 80, 250, 120, 20]), ..base };
    vec![
        // N exactly 0 in 1, one unit of uptake, one of release.
        with_yield(base, 50, 50, 50),
        with_yield(base, 51, 49, 51),
        with_yield(base, 49, 51, 49),
        // P exactly 0 in 1, 4 and 5, and next to it.
        with_yield(phosphorus, 50, 50, 50),
        with_yield(phosphorus, 51, 51, 51),
        with_yield(phosphorus, 49, 49, 49),
        // Much released.
        with_yield(base, 20, 10, 10),
        // No phosphorus in the nitrifiers and algae at all.
        Set {
            xn1: Fractions::from([550, 80, 250, 120, 0]),
            xn2: Fractions::from([550, 80, 250, 120, 0]),
            xalg: Fractions::from([370, 70, 500, 60, 0]),
            xs: Fractions::from([580, 80, 280, 60, 0]),
            xi: Fractions::from([620, 70, 280, 30, 0]),
            ss: Fractions::from([580, 80, 280, 60, 0]),
            ..base
        },
    ]
}

fn zero_entries(scene: &mut Scene) {
    for set in zero_entries_sets() {
        scene.begin(&set);
        scene.fresh(1);
        scene.load(1, 10, 900_000);
        all_calls(scene, &[]);
    }
}

fn uptakes(scene: &mut Scene) {
    for set in least_uptakes().iter().chain(&no_uptakes()) {
        scene.begin(set);
        scene.fresh(1);
        all_calls(scene, &[]);
    }
}

/// Walks through sets that pass checks 1 and 2, refused by 3 or not, by more moves
/// a time the further it is; every 40 sets it begins anew at the published one, with
/// other rate constants.
pub fn neighbours(scene: &mut Scene) {
    let mut set = published();
    for walked in 0..240 {
        if walked % 40 == 0 {
            let random = &mut scene.random;
            set = Set::published(random_rates(random), random_halves(random)).1;
        }
        for _ in 0..1 + walked % 40 / 4 {
            set = random_neighbour(&mut scene.random, &set);
        }
        scene.begin(&set);
        scene.check();
        scene.rows();
        if walked % 8 == 0 {
            scene.fresh(2);
            for substance in 1..=18 {
                let change = scene.random.scaled(900_000_000) as i64;
                scene.load(2, substance, change);
            }
            scene.totals(2);
            scene.step(7, 900_000, MILD);
        }
    }
}
