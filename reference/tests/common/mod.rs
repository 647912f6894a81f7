//! What the tests share: sets and rivers to begin with.
#![allow(dead_code)]

use reference::{check, Halves, Rates, River, Set, Temperature};

/// Temperature factors of one.
pub const MILD: Temperature = Temperature {
    xh: 1_000_000,
    xn1: 1_000_000,
    xn2: 1_000_000,
    algae: 1_000_000,
    hydrolysis: 1_000_000,
};

/// Half-saturations that all differ, so that a mistaken one shows.
pub fn halves() -> Halves {
    Halves::from(std::array::from_fn(|i| 100_003 + 17_011 * i as u32))
}

/// The published set with every process running, each at its own rate.
pub fn published() -> Set {
    let rates = Rates::from(std::array::from_fn(|i| 400 + 83 * i as u32));
    let (number, set) = Set::published(rates, halves());
    assert_eq!((number, check(&set)), (0, 0));
    set
}

/// The published set with no process running but one or two.
pub fn with_rates(change: impl Fn(&mut Rates)) -> Set {
    let mut rates = Rates::default();
    change(&mut rates);
    Set::published(rates, halves()).1
}

/// A fresh river.
pub fn fresh(cells: u32) -> River {
    let (number, river) = River::fresh(cells);
    assert_eq!(number, 0);
    river
}

/// A river with something of everything in all cells.
pub fn filled(cells: u32) -> River {
    let mut river = fresh(cells);
    for (i, amount) in river.amounts[..cells as usize * 18].iter_mut().enumerate() {
        *amount = match i % 18 {
            0 | 1 | 9..=14 => 1_000_000 + 1_003 * i as i64,
            8 | 16 => -1_000_000_007 * i as i64,
            _ => 100_000_000_000_000 + 1_000_003 * i as i64,
        };
    }
    river
}
