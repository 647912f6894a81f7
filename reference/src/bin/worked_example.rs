//! The calls of the library's program `worked_example`, made here: prints what that program must print. The sources of
//! its figures stand there.

use reference::frame::{Frame, Oxygen};
use reference::record::{self, CELL_BYTES};
use reference::substances::*;
use reference::{step, Halves, Rates, River, Set, Temperature};

/// O2 in balance with the air at 20 °C, µg.
const SATURATION: u32 = 9_023_600;

/// A gram of an organic in µg, and a mole in grains.
const GRAM: i64 = 1_000_000;
const MOLE: i64 = 312_480_000_000_000;

fn main() {
    let (number, set) = Set::published(rates(), halves());
    println!("set {number}");
    let (_, mut river) = River::fresh(2);
    let frame = Frame { nh4: 0.7, no2: 0.05, no3: 2.5, po4: 0.12, oxygen: Oxygen::Percent(87.5) };
    let (number, read) = frame.amounts(SATURATION);
    println!("frame {number}");
    let loads = [
        (NH4, read.nh4),
        (NO2, read.no2),
        (NO3, read.no3),
        (HPO4, read.hpo4),
        (O2, read.oxygen.unwrap_or(0)),
        (SS, 10 * GRAM),
        (XS, 5 * GRAM),
        (HCO3, 2 * MOLE),
        (XH, 3 * GRAM),
        (XN1, GRAM),
        (XN2, GRAM),
        (XALG, 2 * GRAM),
    ];
    for (place, amount) in loads {
        println!("load {}", river.load(1, place as u32 + 1, amount));
    }
    for _ in 0..6 {
        let warmth = Temperature::from([1_000_000; 5]);
        println!("step {}", step(&set, &mut river, 600, 500_000, &warmth));
        println!("flow {}", river.flow(500).0);
        println!("air {}", river.air(1, 5_000, 600, SATURATION).0);
        println!("air {}", river.air(2, 5_000, 600, SATURATION).0);
    }
    print_levels(&river);
    let letters = [1, 2].map(|cell| char::from(river.letter(cell).1));
    println!("letter{:>10}{:>10}", letters[0], letters[1]);
    let (mut output, mut work) = ([0; 2 * CELL_BYTES], [0; 2 * CELL_BYTES]);
    println!("record {}", record::write(&river, &mut output, &mut work));
    print!("{}", String::from_utf8_lossy(&output));
}

/// Thousandths per day.
fn rates() -> Rates {
    Rates {
        aerobic_growth: 2_000,
        aerobic_respiration: 200,
        anoxic_growth: 1_600,
        anoxic_respiration: 100,
        n1_growth: 800,
        n1_respiration: 50,
        n2_growth: 1_100,
        n2_respiration: 50,
        algae_growth_ammonium: 2_000,
        algae_growth_nitrate: 2_000,
        algae_respiration: 100,
        algae_death: 100,
        hydrolysis: 3_000,
        adsorption: 500,
        desorption: 300,
    }
}

/// µg.
fn halves() -> Halves {
    Halves {
        aerobic_ss: 1_117_290,
        aerobic_o2: 200_000,
        aerobic_nitrogen: 200_000,
        aerobic_p: 20_000,
        anoxic_ss: 1_117_290,
        anoxic_o2: 200_000,
        anoxic_no3: 500_000,
        anoxic_no2: 200_000,
        anoxic_p: 20_000,
        n1_o2: 500_000,
        n1_nh4: 500_000,
        n1_p: 20_000,
        n2_o2: 500_000,
        n2_no2: 500_000,
        n2_p: 20_000,
        algae_o2: 200_000,
        algae_nitrogen: 100_000,
        algae_nh4: 100_000,
        algae_p: 20_000,
    }
}

/// A line for each substance that has a level: its name and the level in each cell, in g/m³ and rounded down.
fn print_levels(river: &River) {
    println!("g/m3      cell 1    cell 2");
    let substances = [
        ("SS", SS, 1),
        ("SI", SI, 1),
        ("NH4-N", NH4, W_N),
        ("NO2-N", NO2, W_N),
        ("NO3-N", NO3, W_N),
        ("PO4-P", HPO4, W_P),
        ("O2", O2, W_O),
        ("XH", XH, 1),
        ("XN1", XN1, 1),
        ("XN2", XN2, 1),
        ("XALG", XALG, 1),
        ("XS", XS, 1),
        ("XI", XI, 1),
        ("XP", XP, W_P),
    ];
    for (name, place, weight) in substances {
        let grams = [place, SUBSTANCES + place].map(|at| {
            let thousandths = river.amounts[at] / weight / 1_000;
            format!("{}.{:03}", thousandths / 1_000, thousandths % 1_000)
        });
        println!("{name:6}{:>10}{:>10}", grams[0], grams[1]);
    }
}
