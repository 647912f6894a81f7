//! Makes many calls of one kind on rivers of eight cells and prints one line, a
//! checksum of the answers, for measuring the time of a call. It does what crate
//! `speed` of the library does, turn by turn, so equal input gives equal output.
//! Standard input is a letter for the kind and how many calls, as in `s 1000`.
//!
//! The library's calls hand a river in and a river back. The calls here change a
//! river in place, so each is made on a copy: in both programs the river that a
//! call is made on is still there after it.

use reference::page::{self, ROW_BYTES};
use reference::record::{self, CELL_BYTES};
use reference::river::{CARRIES, CELLS};
use reference::rows::rows;
use reference::substances::SUBSTANCES;
use reference::{step, Amounts, Frame, Halves, Oxygen, Rates, River, Set, Temperature, Yields};
use std::hint::black_box;
use std::io::Read;

/// Rivers, and sets, that are taken in turn.
const PREPARED: usize = 8;
/// Bytes of a record of eight cells.
const BYTES: usize = CELLS * CELL_BYTES;
/// Bytes of a bank page of eight cells.
const PAGE_BYTES: usize = CELLS * ROW_BYTES;
/// No more calls than this are made: from there on a digit changes nothing.
const MOST: u64 = 1_000_000_000;

fn main() {
    let mut text = Vec::new();
    std::io::stdin().read_to_end(&mut text).expect("standard input can be read");
    let digits = text.iter().skip(1).filter(|byte| byte.is_ascii_digit());
    let calls =
        digits.fold(
            0,
            |calls, byte| {
                if calls >= MOST {
                    calls
                } else {
                    calls * 10 + u64::from(byte - b'0')
                }
            },
        );
    println!("{}", checksum(text.first().copied().unwrap_or(b'n'), calls));
}

/// The checksum of so many calls of a kind; 0 for a letter of no kind.
fn checksum(kind: u8, calls: u64) -> u64 {
    match kind {
        b's' => steps(calls),
        b'f' => flows(calls),
        b'a' => airs(calls),
        b'l' => loads(calls),
        b'r' => rows_of_sets(calls),
        b'w' => writes(calls),
        b'R' => reads(calls),
        b'p' => frames(calls),
        b'b' => pages(calls),
        b'n' => turns(calls),
        _ => 0,
    }
}

fn turns(calls: u64) -> u64 {
    let rivers = rivers();
    (0..calls).fold(0, |sum, turn| with(sum, black_box(&rivers[in_turn(turn)]).cells.into()))
}

fn steps(calls: u64) -> u64 {
    let (sets, rivers) = (sets(), rivers());
    (0..calls).fold(0, |sum, turn| {
        let k = in_turn(turn);
        step_turn(&sets[k], &rivers[k], sum, turn)
    })
}

fn flows(calls: u64) -> u64 {
    let rivers = rivers();
    (0..calls).fold(0, |sum, turn| flow_turn(&rivers[in_turn(turn)], sum, turn))
}

fn airs(calls: u64) -> u64 {
    let rivers = rivers();
    (0..calls).fold(0, |sum, turn| air_turn(&rivers[in_turn(turn)], sum, turn))
}

fn loads(calls: u64) -> u64 {
    let rivers = rivers();
    (0..calls).fold(0, |sum, turn| load_turn(&rivers[in_turn(turn)], sum, turn))
}

fn rows_of_sets(calls: u64) -> u64 {
    let sets = sets();
    (0..calls).fold(0, |sum, turn| rows_turn(&sets[in_turn(turn)], sum, turn))
}

fn writes(calls: u64) -> u64 {
    let rivers = rivers();
    let (mut output, mut work) = ([0; BYTES], [0; BYTES]);
    (0..calls)
        .fold(0, |sum, turn| write_turn(&rivers[in_turn(turn)], &mut output, &mut work, sum, turn))
}

fn reads(calls: u64) -> u64 {
    let texts = rivers().map(|river| {
        let (mut output, mut work) = ([0; BYTES], [0; BYTES]);
        record::write(&river, &mut output, &mut work);
        output
    });
    (0..calls).fold(0, |sum, turn| read_turn(&texts[in_turn(turn)], sum, turn))
}

fn frames(calls: u64) -> u64 {
    let readings = readings();
    (0..calls).fold(0, |sum, turn| frame_turn(&readings, sum, turn))
}

fn pages(calls: u64) -> u64 {
    let rivers = rivers();
    let mut output = [0; PAGE_BYTES];
    (0..calls).fold(0, |sum, turn| page_turn(&rivers[in_turn(turn)], &mut output, sum, turn))
}

// One turn of each kind: one call, and the checksum with its answer. Each call stands
// in a function of its own, as in crate `speed`. An answer stays where the call put
// it: the pattern `(number, river)` would copy the river out of it, and the call makes
// no such copy.

fn step_turn(set: &Set, river: &River, sum: u64, turn: u64) -> u64 {
    let mut river = black_box(river).clone();
    let seconds = (50 + turn % 16) as u32;
    let warmth = (1_000_000 + turn % 1_000) as u32;
    let light = (500_000 + turn % 1_000) as u32;
    let temperature = Temperature::from([warmth; 5]);
    let number = step(black_box(set), &mut river, seconds, light, &temperature);
    with_river(with(sum, number.into()), black_box(&river), turn)
}

fn flow_turn(river: &River, sum: u64, turn: u64) -> u64 {
    let mut river = black_box(river).clone();
    let answer = river.flow((turn % 10_001) as u32);
    let (number, left) = black_box(&answer);
    let sum = with_river(with(sum, (*number).into()), black_box(&river), turn);
    with_amounts(sum, left, turn)
}

fn air_turn(river: &River, sum: u64, turn: u64) -> u64 {
    let mut river = black_box(river).clone();
    let (number, added) = river.air(
        (1 + turn / 8 % 8) as u32,
        (turn % 20_001) as u32,
        (1 + turn % 3_600) as u32,
        (8_000_000 + turn % 4_000_000) as u32,
    );
    let sum = with(with(sum, number.into()), added as u64);
    with_river(sum, black_box(&river), turn)
}

fn load_turn(river: &River, sum: u64, turn: u64) -> u64 {
    let mut river = black_box(river).clone();
    let size = (1 + turn % 1_000) as i64;
    let number = river.load(
        (1 + turn / 8 % 8) as u32,
        (1 + turn % 18) as u32,
        if turn % 2 == 0 { size } else { -size },
    );
    with_river(with(sum, number.into()), black_box(&river), turn)
}

fn rows_turn(set: &Set, sum: u64, turn: u64) -> u64 {
    let answer = rows(black_box(set));
    let (number, entries) = black_box(&answer);
    let k = (turn % 153) as usize;
    let sum = with(sum, (*number).into());
    with(with(sum, entries[k] as u64), entries[k + 153] as u64)
}

fn write_turn(
    river: &River,
    output: &mut [u8; BYTES],
    work: &mut [u8; BYTES],
    sum: u64,
    turn: u64,
) -> u64 {
    let number = record::write(black_box(river), output, work);
    let sum = with(sum, number.into());
    with_text(with_text(sum, black_box(output), turn), black_box(work), turn)
}

fn read_turn(text: &[u8; BYTES], sum: u64, turn: u64) -> u64 {
    let answer = record::read(black_box(text));
    let (number, river) = black_box(&answer);
    with_river(with(sum, (*number).into()), river, turn)
}

fn frame_turn(readings: &[f32; 16], sum: u64, turn: u64) -> u64 {
    let frame = black_box(frame(readings, turn));
    let (number, amounts) = frame.amounts((8_000_000 + turn % 4_000_000) as u32);
    with_frame(with(sum, number.into()), &amounts)
}

fn page_turn(river: &River, output: &mut [u8; PAGE_BYTES], sum: u64, turn: u64) -> u64 {
    let number = page::write(black_box(river), output);
    with_page(with(sum, number.into()), black_box(output), turn)
}

/// The place of what a turn takes.
fn in_turn(turn: u64) -> usize {
    (turn % PREPARED as u64) as usize
}

/// The checksum with one number more. It is turned by a bit first, so that the
/// order of the numbers counts.
fn with(sum: u64, number: u64) -> u64 {
    sum.rotate_left(1).wrapping_add(number)
}

/// With the amounts of one substance in all cells.
fn with_amounts(sum: u64, amounts: &[i64], turn: u64) -> u64 {
    let first = (turn % 18) as usize;
    amounts[first..].iter().step_by(SUBSTANCES).fold(sum, |sum, &amount| with(sum, amount as u64))
}

/// With the amounts of one substance and one carry.
fn with_river(sum: u64, river: &River, turn: u64) -> u64 {
    let carry = river.carries[(turn % CARRIES as u64) as usize];
    with(with_amounts(sum, &river.amounts, turn), carry.into())
}

/// With one byte of each cell.
fn with_text(sum: u64, text: &[u8; BYTES], turn: u64) -> u64 {
    let first = (turn % CELL_BYTES as u64) as usize;
    text[first..].iter().step_by(CELL_BYTES).fold(sum, |sum, &byte| with(sum, byte.into()))
}

/// With one byte of each row.
fn with_page(sum: u64, page: &[u8; PAGE_BYTES], turn: u64) -> u64 {
    let first = (turn % ROW_BYTES as u64) as usize;
    page[first..].iter().step_by(ROW_BYTES).fold(sum, |sum, &byte| with(sum, byte.into()))
}

/// With every amount of a frame.
fn with_frame(sum: u64, amounts: &Amounts) -> u64 {
    let Amounts { nh4, no2, no3, hpo4, oxygen } = *amounts;
    let sum = [nh4, no2, no3, hpo4].iter().fold(sum, |sum, &amount| with(sum, amount as u64));
    with(sum, oxygen.unwrap_or(1) as u64)
}

/// Rivers of eight cells with all organisms at work, of which no step above runs
/// dry.
fn rivers() -> [River; PREPARED] {
    std::array::from_fn(|r| {
        let (_, mut river) = River::fresh(CELLS as u32);
        for (k, amount) in river.amounts.iter_mut().enumerate() {
            let more = (k + r * 1_000) as i64;
            *amount = match k % SUBSTANCES {
                0 | 1 | 9..=14 => 50_000_000 + more * 1_000,
                8 | 16 => -1_000_000_007 * more,
                _ => 100_000_000_000_000 + more * 1_000_003,
            };
        }
        for (k, carry) in river.carries.iter_mut().enumerate() {
            *carry = ((k + r * 1_000) * 7_919 % 1_000_000) as u32;
        }
        river
    })
}

/// The published set with rate constants at which every process makes whole
/// batches, and with other yields and half-saturations in each set.
fn sets() -> [Set; PREPARED] {
    let rates = Rates::from([
        2_000, 200, 1_600, 1_000, 800, 50, 1_100, 50, 2_000, 2_000, 100, 2_000, 3_000, 500, 400,
    ]);
    std::array::from_fn(|i| {
        let i = i as u32;
        let (_, set) = Set::published(rates, Halves::from([200_000 + i; 19]));
        let yields = [60 + i, 50 + i, 30 + i, 13 + i, 3 + i, 62, 100];
        Set { yields: Yields::from(yields), ..set }
    })
}

/// Readings as a probe gives them, g/m³.
fn readings() -> [f32; 16] {
    [0.7, 0.5, 3.2, 0.1, 9.15, 1.0, 0.25, 12.5, 0.002, 0.3, 14.6, 255.0, 100.0, 50.0, 87.5, 2.2]
}

/// The frame of a turn; its oxygen is a mass, a percentage and missing in turn.
fn frame(readings: &[f32; 16], turn: u64) -> Frame {
    let k = (turn % 12) as usize;
    let reading = readings[k + 4];
    Frame {
        nh4: readings[k],
        no2: readings[k + 1],
        no3: readings[k + 2],
        po4: readings[k + 3],
        oxygen: match turn % 3 {
            0 => Oxygen::Mass(reading),
            1 => Oxygen::Percent(reading),
            _ => Oxygen::Missing,
        },
    }
}

#[cfg(test)]
mod tests {
    use super::*;

    /// A refused call would be measured as a fast one.
    #[test]
    fn every_river_steps_under_every_set() {
        for set in &sets() {
            for river in &rivers() {
                for (seconds, warmth) in [(50, 1_000_000), (65, 1_000_999)] {
                    let temperature = Temperature::from([warmth; 5]);
                    let mut after = river.clone();
                    assert_eq!(step(set, &mut after, seconds, 500_999, &temperature), 0);
                    assert_ne!(&after, river);
                }
            }
        }
    }

    #[test]
    fn every_river_has_a_page() {
        assert!(rivers().iter().all(|river| page::write(river, &mut [0; PAGE_BYTES]) == 0));
    }
}
