//! Random lists of calls for the balance: from a fresh river, under one accepted
//! set, load, flow, air and step with refused calls among them, and after every
//! call the book of each stretch against what its cells hold.

use crate::book::{add, contents_of_all, Book, Call, Totals};
use crate::refusal;
use crate::river::{totals, River};
use crate::sets::{check, Fractions, Halves, Rates, Set, Yields};
use crate::step::Temperature;
use crate::substances::{HIGHEST, LOWEST, SUBSTANCES};

/// The splitmix64 generator: a list is told by its seed alone.
pub struct Random(u64);

impl Random {
    pub fn new(seed: u64) -> Self {
        Random(seed)
    }

    pub fn draw(&mut self) -> u64 {
        self.0 = self.0.wrapping_add(0x9e37_79b9_7f4a_7c15);
        let mut z = self.0;
        z = (z ^ z >> 30).wrapping_mul(0xbf58_476d_1ce4_e5b9);
        z = (z ^ z >> 27).wrapping_mul(0x94d0_49bb_1331_11eb);
        z ^ z >> 31
    }

    /// A number from 0 to below the limit.
    pub fn below(&mut self, limit: u64) -> u64 {
        self.draw() % limit
    }

    /// A number of a range, its ends included.
    pub fn among(&mut self, low: u32, high: u32) -> u32 {
        low + self.below(u64::from(high - low) + 1) as u32
    }

    /// True once in so many times.
    pub fn once_in(&mut self, times: u64) -> bool {
        self.below(times) == 0
    }

    /// A number up to a limit of at least 1, small ones as likely as large ones.
    pub fn scaled(&mut self, limit: u64) -> u64 {
        let magnitude = self.below(u64::from(limit.ilog2()) + 1);
        ((1 << magnitude) + self.below(1 << magnitude)).min(limit)
    }

    /// A number up to a limit, sometimes one past it or far beyond.
    fn mostly_up_to(&mut self, limit: u32) -> u32 {
        match self.below(60) {
            0 => limit + 1,
            1 => u32::MAX - self.below(10) as u32,
            2 => limit,
            3 => 0,
            _ => self.among(0, limit),
        }
    }
}

/// Rate constants in range, small ones as likely as large ones.
pub fn random_rates(random: &mut Random) -> Rates {
    let rates: [u32; 15] = std::array::from_fn(|_| match random.below(8) {
        0 => 0,
        1 => Set::RATE_MAX,
        _ => random.scaled(u64::from(Set::RATE_MAX)) as u32,
    });
    Rates::from(rates)
}

/// Half-saturations in range.
pub fn random_halves(random: &mut Random) -> Halves {
    let halves: [u32; 19] = std::array::from_fn(|_| random.scaled(u64::from(Set::HALF_MAX)) as u32);
    Halves::from(halves)
}

/// A set that passes checks 1 and 2, one move away from the given one: another
/// yield or inert fraction, or thousandths of an organic moved between elements.
pub fn random_neighbour(random: &mut Random, set: &Set) -> Set {
    let mut set = *set;
    match random.below(8) {
        0 => {
            let mut yields = set.yields.to_array();
            yields[random.below(7) as usize] = random.among(1, 100);
            set.yields = Yields::from(yields);
        }
        1 if random.once_in(2) => set.inert.bacteria = random.among(0, 100),
        1 => set.inert.algae = random.among(0, 100),
        _ => {
            let organic = match random.below(8) {
                0 => &mut set.ss,
                1 => &mut set.si,
                2 => &mut set.xh,
                3 => &mut set.xn1,
                4 => &mut set.xn2,
                5 => &mut set.xalg,
                6 => &mut set.xs,
                _ => &mut set.xi,
            };
            let mut fractions = organic.to_array();
            let (from, to) = (random.below(5) as usize, random.below(5) as usize);
            let moved = (random.scaled(200) as u32).min(fractions[from]);
            fractions[from] -= moved;
            fractions[to] += moved;
            *organic = Fractions::from(fractions);
        }
    }
    set
}

/// An accepted set: a walk of up to some hundred moves from the published one, of
/// which those are made that keep the set accepted. (Sets drawn outright are
/// hardly ever accepted but near the published one.)
pub fn random_set(random: &mut Random) -> Set {
    let (_, mut set) = Set::published(random_rates(random), random_halves(random));
    for _ in 0..random.below(400) {
        let moved = random_neighbour(random, &set);
        if check(&moved) == refusal::NONE {
            set = moved;
        }
    }
    set
}

/// A load of the size such substances have in rivers.
fn usual_load(random: &mut Random, cell: u32, substance: u32) -> Call {
    let highest = HIGHEST[substance as usize - 1] as u64;
    let change = highest / 4_000 * random.scaled(1_000) + random.below(1_000);
    Call::Load { cell, substance, change: change as i64 }
}

/// Any call on a river of so many cells.
pub fn random_call(random: &mut Random, cells: u32) -> Call {
    let cell = match random.below(40) {
        0 => 0,
        1 => cells + 1,
        2 => u32::MAX,
        _ => random.among(1, cells),
    };
    let seconds = match random.below(40) {
        0 => 0,
        1 => 3_601,
        2 => 3_600,
        3 => u32::MAX,
        _ => random.scaled(3_600) as u32,
    };
    match random.below(10) {
        0..=2 => random_load(random, cell),
        3..=4 => Call::Flow { part: random.mostly_up_to(River::PART_MAX) },
        5..=6 => {
            let constant = random.mostly_up_to(River::AIR_MAX);
            let saturation = random.mostly_up_to(River::SATURATION_MAX);
            Call::Air { cell, constant, seconds, saturation }
        }
        _ => {
            let light = random.mostly_up_to(1_000_000);
            let mut factors = std::array::from_fn(|_| random.among(0, Temperature::MAX));
            if random.once_in(20) {
                factors[random.below(5) as usize] = random.mostly_up_to(Temperature::MAX);
            }
            Call::Step { seconds, light, temperature: Temperature::from(factors) }
        }
    }
}

fn random_load(random: &mut Random, cell: u32) -> Call {
    let substance = match random.below(40) {
        0 => 0,
        1 => SUBSTANCES as u32 + 1,
        2 => u32::MAX,
        _ => random.among(1, SUBSTANCES as u32),
    };
    let place = (substance as usize).clamp(1, SUBSTANCES) - 1;
    let change = match random.below(30) {
        0 => i64::MIN,
        1 => i64::MAX,
        2 => HIGHEST[place],
        3 => HIGHEST[place] + 1,
        4 => LOWEST[place] - 1,
        5..=12 => -(random.scaled(HIGHEST[place] as u64) as i64),
        _ => random.scaled(HIGHEST[place] as u64) as i64,
    };
    Call::Load { cell, substance, change }
}

/// Calls by kind (load, flow, air, step) and number (0 to 8).
pub type Counts = [[u64; 9]; 4];

/// Makes a list of calls and compares books and river after each, and before the
/// first. Answers the counts, or what differed.
pub fn run_list(seed: u64, calls: u64) -> Result<Counts, String> {
    let mut random = Random::new(seed);
    let set = random_set(&mut random);
    let cells = random.among(1, 8);
    let (_, mut river) = River::fresh(cells);
    let mut books: Vec<Book> = (1..=cells)
        .flat_map(|first| (first..=cells).map(move |last| Book::new(first, last)))
        .collect();
    let mut counts = Counts::default();
    // Most lists fill the river first, or its steps would have little to do.
    let filled = if random.once_in(5) { 0 } else { u64::from(cells) * SUBSTANCES as u64 };

    compare(&set, &river, &books).map_err(|what| format!("seed {seed}, fresh: {what}"))?;
    for i in 0..calls {
        let call = if i < filled {
            let (cell, substance) = (i / SUBSTANCES as u64, i % SUBSTANCES as u64);
            usual_load(&mut random, cell as u32 + 1, substance as u32 + 1)
        } else {
            random_call(&mut random, cells)
        };
        let told = |what: String| format!("seed {seed}, call {i} {call:?}: {what}");
        let before = river.clone();
        let answer = call.make(&set, &mut river);
        let kind = match call {
            Call::Load { .. } => 0,
            Call::Flow { .. } => 1,
            Call::Air { .. } => 2,
            Call::Step { .. } => 3,
        };
        counts[kind][answer.number() as usize] += 1;
        if answer.number() != refusal::NONE && river != before {
            return Err(told("a refused call changed the river".into()));
        }
        books.iter_mut().for_each(|book| book.enter(&set, &call, &answer));
        compare(&set, &river, &books).map_err(told)?;
    }
    Ok(counts)
}

/// Compares every book with what its cells hold, and the totals a caller gets of
/// each cell with the contents of its amounts.
fn compare(set: &Set, river: &River, books: &[Book]) -> Result<(), String> {
    let mut held: [Totals; 8] = Default::default();
    for (cell, held) in (1..=river.cells).zip(&mut held) {
        let (number, told) = totals(set, river, cell);
        let amounts = &river.amounts[(cell as usize - 1) * SUBSTANCES..][..SUBSTANCES];
        *held = contents_of_all(set, amounts);
        if number != refusal::NONE || told.map(i128::from) != *held {
            return Err(format!("totals of cell {cell}: {number} {told:?}, held {held:?}"));
        }
    }
    for book in books {
        let mut sum = [0; 6];
        held[book.first as usize - 1..book.last as usize].iter().for_each(|&h| add(&mut sum, 1, h));
        if sum != book.totals {
            let Book { first, last, totals } = book;
            return Err(format!("cells {first} to {last} hold {sum:?}, the book {totals:?}"));
        }
    }
    Ok(())
}
