//! The calls of the library's program `walk`, made here: prints what that program must print. Its books are kept by
//! `book.rs`, from the calls and their answers alone.

use reference::book::{Answer, Book, Call};
use reference::{totals, Halves, Rates, River, Set, Temperature};

const CELLS: u32 = 4;

/// Places of substances, counted from 1.
const SS: u32 = 1;
const NH4: u32 = 3;
const NO2: u32 = 4;
const NO3: u32 = 5;
const HPO4: u32 = 6;
const O2: u32 = 7;
const HCO3: u32 = 8;
const XH: u32 = 10;
const XN1: u32 = 11;
const XN2: u32 = 12;
const XALG: u32 = 13;
const XS: u32 = 14;

/// Grains in a gram of O2 and of N, and a gram of an organic in µg.
const OXYGEN: i64 = 9_765_000_000_000;
const NITROGEN: i64 = 22_320_000_000_000;
const GRAM: i64 = 1_000_000;

fn main() {
    let rates = Rates::from([
        2_000, 200, 1_600, 100, 800, 50, 1_100, 50, 2_000, 2_000, 100, 100, 3_000, 1_000, 1_000,
    ]);
    let halves = Halves::from([
        2_000_000, 200_000, 200_000, 20_000, // XH with oxygen
        2_000_000, 200_000, 500_000, 200_000, 20_000, // XH without
        500_000, 500_000, 20_000, // XN1
        500_000, 500_000, 20_000, // XN2
        200_000, 100_000, 100_000, 20_000, // algae
    ]);
    let (_, set) = Set::published(rates, halves);
    let (_, mut river) = River::fresh(CELLS);
    let mut books: Vec<Book> = (1..=CELLS).map(|cell| Book::new(cell, cell)).collect();
    for call in all_calls() {
        let answer = call.make(&set, &mut river);
        books.iter_mut().for_each(|book| book.enter(&set, &call, &answer));
        println!("{} {}", name(&answer), answer.number());
    }
    for book in &books {
        let (_, held) = totals(&set, &river, book.first);
        println!("holds {}{}", book.first, figures(&held.map(i128::from)));
        println!("book  {}{}", book.first, figures(&book.totals));
    }
}

fn name(answer: &Answer) -> &'static str {
    match answer {
        Answer::Load(..) => "load",
        Answer::Flow(..) => "flow",
        Answer::Air(..) => "air",
        Answer::Step(..) => "step",
    }
}

fn figures(totals: &[i128; 6]) -> String {
    totals.iter().map(|total| format!(" {total}")).collect()
}

fn load(cell: u32, substance: u32, change: i64) -> Call {
    Call::Load { cell, substance, change }
}

fn air(cell: u32, constant: u32, seconds: u32, saturation: u32) -> Call {
    Call::Air { cell, constant, seconds, saturation }
}

/// A step with one temperature factor for all.
fn step(seconds: u32, light: u32, warmth: u32) -> Call {
    Call::Step { seconds, light, temperature: Temperature::from([warmth; 5]) }
}

fn all_calls() -> Vec<Call> {
    let mut calls = Vec::new();
    calls.extend(filled(1, 9 * OXYGEN, NITROGEN));
    calls.extend(filled(2, 7 * OXYGEN, NITROGEN));
    calls.extend(filled(3, OXYGEN / 5, 6 * NITROGEN));
    calls.extend(filled(4, OXYGEN / 5, 6 * NITROGEN));
    calls.extend(refused());
    calls.extend(ten_minutes(0, 600_000));
    // So much XS that a step reaches too many batches; then it is taken out again.
    calls.extend([
        load(2, XS, 900 * GRAM),
        step(3_600, 500_000, 1_000_000),
        load(2, XS, -900 * GRAM),
    ]);
    for (light, warmth) in [
        (0, 700_000),
        (0, 750_000),
        (100_000, 800_000),
        (250_000, 900_000),
        (400_000, 1_000_000),
        (600_000, 1_200_000),
        (800_000, 1_400_000),
        (900_000, 1_500_000),
        (850_000, 1_600_000),
    ] {
        calls.extend(ten_minutes(light, warmth));
    }
    calls.extend(refused());
    calls
}

fn filled(cell: u32, oxygen: i64, nitrate: i64) -> [Call; 12] {
    [
        load(cell, SS, 20 * GRAM),
        load(cell, NH4, 2 * NITROGEN),
        load(cell, NO2, NITROGEN / 10),
        load(cell, NO3, nitrate),
        load(cell, HPO4, 5_000_000_000_000),
        load(cell, O2, oxygen),
        load(cell, HCO3, 100 * NITROGEN),
        load(cell, XH, 8 * GRAM),
        load(cell, XN1, GRAM / 2),
        load(cell, XN2, GRAM / 4),
        load(cell, XALG, 2 * GRAM),
        load(cell, XS, 15 * GRAM),
    ]
}

/// None of these changes the river.
fn refused() -> [Call; 13] {
    [
        load(5, SS, 1),
        load(0, SS, 1),
        load(1, 19, 1),
        load(1, SS, -i64::MAX),
        load(1, XS, 1_000 * GRAM),
        Call::Flow { part: 10_001 },
        air(5, 2_000, 600, 9_000_000),
        air(1, 20_001, 600, 9_000_000),
        air(1, 2_000, 0, 9_000_000),
        step(0, 500_000, 1_000_000),
        step(3_601, 500_000, 1_000_000),
        step(600, 1_000_001, 1_000_000),
        step(600, 500_000, 4_000_001),
    ]
}

fn ten_minutes(light: u32, warmth: u32) -> [Call; 4] {
    [
        Call::Flow { part: 200 },
        air(1, 4_000, 600, 9_100_000),
        air(2, 2_000, 600, 9_100_000),
        step(600, light, warmth),
    ]
}
