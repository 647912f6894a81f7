//! The step against a plain one: every factor from the list of factors of its
//! process, one after the other, in wide numbers, with whole rows.

mod common;

use common::{filled, fresh, published, with_rates, MILD};
use reference::lists::{random_set, Random};
use reference::substances::*;
use reference::{batch_sizes, check, rows, step, River, Set, Stepper, Temperature};

/// A factor as the rules list them; `P` stands only where the row takes it up.
enum Factor {
    Monod(i128, u32),
    Inhibition(i128, u32),
    P(u32),
    Light,
}

fn plain(set: &Set, river: &River, seconds: u32, light: u32, t: &Temperature) -> (u32, River) {
    use Factor::*;
    let (number, rows) = rows(set);
    if number != 0 || river.check() != 0 {
        return (if number != 0 { number } else { 4 }, river.clone());
    }
    let factors = t.to_array();
    if !(1..=3_600).contains(&seconds)
        || light > 1_000_000
        || factors.iter().any(|&f| f > 4_000_000)
    {
        return (6, river.clone());
    }
    let (k, b) = (&set.halves, batch_sizes(set));
    let r = set.rates.to_array();
    let rate_of = [0, 0, 1, 2, 2, 3, 4, 5, 6, 7, 8, 9, 10, 11, 12, 13, 14];
    let organism =
        [XH, XH, XH, XH, XH, XH, XN1, XN1, XN2, XN2, XALG, XALG, XALG, XALG, XS, HPO4, XP];
    let mut next = river.clone();
    let (mut seven, mut eight) = (false, false);
    for cell in 0..river.cells as usize {
        let level = |s: usize| {
            let weight = match s {
                NH4 | NO2 | NO3 => W_N,
                O2 => W_O,
                HPO4 | XP => W_P,
                _ => 1,
            };
            i128::from(river.amounts[18 * cell + s]).div_euclid(i128::from(weight))
        };
        let (ss, o2, nh4, no2, no3) = (level(SS), level(O2), level(NH4), level(NO2), level(NO3));
        let mut first = vec![Monod(ss, k.aerobic_ss), Monod(o2, k.aerobic_o2)];
        if rows[NH4] < 0 {
            first.push(Monod(nh4, k.aerobic_nitrogen));
        }
        first.push(P(k.aerobic_p));
        let lists: [Vec<Factor>; 17] = [
            first,
            vec![
                Monod(ss, k.aerobic_ss),
                Monod(o2, k.aerobic_o2),
                Inhibition(nh4, k.aerobic_nitrogen),
                Monod(no3, k.aerobic_nitrogen),
                P(k.aerobic_p),
            ],
            vec![Monod(o2, k.aerobic_o2)],
            vec![
                Monod(ss, k.anoxic_ss),
                Inhibition(o2, k.anoxic_o2),
                Monod(no3, k.anoxic_no3),
                P(k.anoxic_p),
            ],
            vec![
                Monod(ss, k.anoxic_ss),
                Inhibition(o2, k.anoxic_o2),
                Monod(no2, k.anoxic_no2),
                P(k.anoxic_p),
            ],
            vec![Inhibition(o2, k.anoxic_o2), Monod(no3, k.anoxic_no3)],
            vec![Monod(o2, k.n1_o2), Monod(nh4, k.n1_nh4), P(k.n1_p)],
            vec![Monod(o2, k.n1_o2)],
            vec![Monod(o2, k.n2_o2), Monod(no2, k.n2_no2), P(k.n2_p)],
            vec![Monod(o2, k.n2_o2)],
            vec![Monod(nh4 + no3, k.algae_nitrogen), Monod(nh4, k.algae_nh4), P(k.algae_p), Light],
            vec![
                Monod(nh4 + no3, k.algae_nitrogen),
                Inhibition(nh4, k.algae_nh4),
                P(k.algae_p),
                Light,
            ],
            vec![Monod(o2, k.algae_o2)],
            vec![],
            vec![],
            vec![],
            vec![],
        ];
        let mut change = [0; 18];
        for (process, list) in lists.iter().enumerate() {
            let row = &rows[18 * process..18 * (process + 1)];
            let mut p: i128 = 1_000_000;
            for factor in list {
                let (above, below) = match *factor {
                    Monod(s, k) => (s, s + i128::from(k)),
                    Inhibition(s, k) => (i128::from(k), s + i128::from(k)),
                    P(k) if row[HPO4] < 0 => (level(HPO4), level(HPO4) + i128::from(k)),
                    P(_) => (1, 1),
                    Light => (i128::from(light), 1_000_000),
                };
                p = p * (1_000_000 * above / below) / 1_000_000;
            }
            if process == 1 && rows[NH4] >= 0 {
                p = 0;
            }
            let warmth = match process + 1 {
                1..=6 => t.xh,
                7 | 8 => t.xn1,
                9 | 10 => t.xn2,
                11..=14 => t.algae,
                15 => t.hydrolysis,
                _ => 1_000_000,
            };
            p = p * i128::from(warmth) / 1_000_000;
            let q = i128::from(r[rate_of[process]]) * p * i128::from(seconds) / 86_400;
            let extent = level(organism[process]) * q / (1_000 * i128::from(b[process]));
            let carry = &mut next.carries[17 * cell + process];
            let reached = i128::from(*carry) + extent;
            seven |= reached / 1_000_000 > 100_000;
            *carry = (reached % 1_000_000) as u32;
            for (change, &entry) in change.iter_mut().zip(row) {
                *change += reached / 1_000_000 * i128::from(entry);
            }
        }
        for substance in 0..18 {
            let amount = &mut next.amounts[18 * cell + substance];
            let end = i128::from(*amount) + change[substance];
            eight |= end < i128::from(LOWEST[substance]) || end > i128::from(HIGHEST[substance]);
            *amount = end as i64;
        }
    }
    match (seven, eight) {
        (true, _) => (7, river.clone()),
        (_, true) => (8, river.clone()),
        _ => (0, next),
    }
}

/// Both forms of the step against the plain one; answers the number.
fn agree(set: &Set, river: &River, seconds: u32, light: u32, t: &Temperature) -> u32 {
    let expected = plain(set, river, seconds, light, t);
    let mut stepped = river.clone();
    let number = step(set, &mut stepped, seconds, light, t);
    assert_eq!((number, &stepped), (expected.0, &expected.1));
    if let Ok(stepper) = Stepper::new(set) {
        let mut stepped = river.clone();
        assert_eq!(stepper.step(&mut stepped, seconds, light, t), number);
        assert_eq!(stepped, expected.1);
    }
    number
}

#[test]
fn random_steps() {
    let mut random = Random::new(5);
    let mut seen = [0; 9];
    let mut growth_without_ammonium = 0;
    for round in 0..20_000 {
        let set = random_set(&mut random);
        growth_without_ammonium += u32::from(rows(&set).1[NH4] >= 0);
        let cells = random.among(1, 3);
        let mut river = fresh(cells);
        for place in 0..cells as usize * 18 {
            let high = HIGHEST[place % 18] as u64;
            river.amounts[place] = match random.below(16) {
                0 => 0,
                1 => high as i64,
                2..=5 => random.scaled(high) as i64,
                _ => (high / 4_000 * random.scaled(1_000) + random.below(1_000)) as i64,
            };
        }
        for carry in &mut river.carries[..cells as usize * 17] {
            *carry = [0, 999_999, random.below(1_000_000) as u32][random.below(3) as usize];
        }
        let seconds = random.scaled(3_600) as u32;
        let light = [0, 1_000_000, random.among(0, 1_000_000)][random.below(3) as usize];
        let factors = std::array::from_fn(|_| match random.below(8) {
            0 => 0,
            1 => 4_000_000,
            _ => random.among(0, 4_000_000),
        });
        let mut temperature = Temperature::from(factors);
        if round % 50 == 0 {
            temperature.xn2 = 4_000_001;
        }
        seen[agree(&set, &river, seconds, light, &temperature) as usize] += 1;
    }
    assert!(seen[0] > 3_000 && seen[6] > 100 && seen[7] > 500 && seen[8] > 1_000, "{seen:?}");
    assert!(growth_without_ammonium > 500);
}

/// One process at a time, each with its own half-saturations.
#[test]
fn each_rate_alone() {
    for i in 0..15 {
        let mut rates = [0; 15];
        rates[i] = 4_321;
        let set = with_rates(|r| *r = rates.into());
        for oxygen in [0, 90_000 * W_O, 9_000_000 * W_O] {
            let mut river = filled(2);
            river.amounts[O2] = oxygen;
            let t = Temperature::from([1_100_000, 1_200_000, 1_300_000, 1_400_000, 1_500_000]);
            assert_eq!(agree(&set, &river, 61, 700_000, &t), 0);
        }
    }
}

#[test]
fn conditions() {
    let (set, river) = (published(), filled(1));
    assert_eq!(agree(&set, &river, 1, 1_000_000, &MILD), 0);
    assert_eq!(agree(&set, &river, 0, 0, &MILD), 6);
    assert_eq!(agree(&set, &river, 3_601, 0, &MILD), 6);
    assert_eq!(agree(&set, &river, 1, 1_000_001, &MILD), 6);
    for i in 0..5 {
        let mut factors = [4_000_000; 5];
        assert_eq!(agree(&set, &fresh(1), 1, 0, &factors.into()), 0);
        factors[i] += 1;
        assert_eq!(agree(&set, &fresh(1), 1, 0, &factors.into()), 6);
    }
}

/// Exactly 100,000 batches pass; 7 in the last cell comes before 8 in the first.
#[test]
fn batches() {
    let set = with_rates(|rates| rates.desorption = 20_000);
    // q is 833,333,333 and a batch 100 µg, so the extent is 100,000,008,293.
    let mut river = fresh(3);
    river.amounts[36 + XP] = 12_000_001 * W_P;
    river.carries[34 + 16] = 991_706;
    assert_eq!(agree(&set, &river, 3_600, 0, &MILD), 0);
    let mut stepped = river.clone();
    assert_eq!(step(&set, &mut stepped, 3_600, 0, &MILD), 0);
    assert_eq!(stepped.amounts[36 + HPO4], 100_000 * 100 * W_P);
    assert_eq!(stepped.carries[34 + 16], 999_999);
    river.carries[34 + 16] += 1;
    assert_eq!(agree(&set, &river, 3_600, 0, &MILD), 7);
    // In the first cell phosphate would pass its bound.
    river.amounts[HPO4] = GRAINS_MAX;
    river.amounts[XP] = 1_000 * W_P;
    assert_eq!(agree(&set, &river, 3_600, 0, &MILD), 7);
    river.amounts[36 + XP] = 0;
    assert_eq!(agree(&set, &river, 3_600, 0, &MILD), 8);
    assert_eq!(check(&set), 0);
}

/// The largest figures everywhere: nothing overflows on the way to a refusal.
#[test]
fn extremes() {
    let (_, mut set) = Set::published([20_000; 15].into(), [1; 19].into());
    set.yields = [1, 1, 1, 1, 1, 62, 100].into();
    assert_eq!(check(&set), 0);
    let mut river = fresh(8);
    for (place, amount) in river.amounts.iter_mut().enumerate() {
        *amount = HIGHEST[place % 18];
    }
    river.carries = [999_999; 136];
    let hot = Temperature::from([4_000_000; 5]);
    assert_eq!(agree(&set, &river, 3_600, 1_000_000, &hot), 7);
    // As many batches as pass, on amounts at their lowest and highest.
    set.rates = [20; 15].into();
    for (place, amount) in river.amounts.iter_mut().enumerate() {
        *amount = match place % 18 {
            H | H2O => LOWEST[place % 18],
            s => HIGHEST[s],
        };
    }
    assert_eq!(agree(&set, &river, 1, 1_000_000, &hot), 8);
}
