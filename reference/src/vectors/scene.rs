//! What the calls are made on: a set, a river, the river's record as text, changes
//! of these for the next call, and the lines written of it all.

use super::digest::Digest;
use super::figures::{figures_of, set_of, FIGURES};
use super::text::Text;
use super::{KINDS, NUMBERS};
use crate::extents::Conditions;
use crate::frame::{Frame, Oxygen};
use crate::lists::Random;
use crate::page;
use crate::record::{self, CELL_BYTES};
use crate::refusal;
use crate::river::{totals, River, BATCH, CELLS};
use crate::rows::{self, PROCESSES};
use crate::sets::{check, Set};
use crate::step::{step, Temperature};
use crate::substances::SUBSTANCES;
use std::fmt::Write;

/// What a call is given besides its arguments.
#[derive(Clone)]
struct Given {
    figures: [u32; FIGURES],
    river: River,
    /// Whether the river was changed for this call alone.
    changed: bool,
    /// The text, where it was changed for this call alone.
    text: Option<Text>,
}

/// Scene, lines and counts.
pub struct Scene {
    pub random: Random,
    pub lines: String,
    /// Calls by kind and number.
    pub counts: [[u64; NUMBERS]; KINDS.len()],
    /// Whole batches of each process in the steps that the river took, and the steps
    /// with any; a step of a river changed for one call does not count.
    pub batches: [(u64, u64); PROCESSES],
    figures: [u32; FIGURES],
    river: River,
    given: Given,
}

impl Scene {
    pub fn new(seed: u64) -> Self {
        let (_, river) = River::fresh(0);
        let figures = [0; FIGURES];
        let given = Given { figures, river: river.clone(), changed: false, text: None };
        Scene {
            random: Random::new(seed),
            lines: String::new(),
            counts: Default::default(),
            batches: Default::default(),
            figures,
            river,
            given,
        }
    }

    /// The river that the next call gets but for changes.
    pub fn river(&self) -> &River {
        &self.river
    }

    /// The set of the block.
    pub fn set(&self) -> Set {
        set_of(&self.figures)
    }

    fn line(&mut self, letter: char, numbers: &[i64]) {
        self.lines.push(letter);
        for number in numbers {
            write!(self.lines, " {number}").expect("a string takes all that is written");
        }
        self.lines.push('\n');
    }

    /// Begins a block.
    pub fn begin(&mut self, set: &Set) {
        self.figures = figures_of(set);
        self.given.figures = self.figures;
        self.line('G', &self.figures.map(i64::from));
    }

    // Changes for the next call.

    pub fn figure(&mut self, place: usize, value: u32) {
        self.given.figures[place] = value;
        self.line('f', &[place as i64, value.into()]);
    }

    pub fn cells(&mut self, cells: u32) {
        self.given.river.cells = cells;
        self.given.changed = true;
        self.line('c', &[cells.into()]);
    }

    pub fn amount(&mut self, place: usize, value: i64) {
        self.given.river.amounts[place] = value;
        self.given.changed = true;
        self.line('a', &[place as i64, value]);
    }

    pub fn carry(&mut self, place: usize, value: u32) {
        self.given.river.carries[place] = value;
        self.given.changed = true;
        self.line('k', &[place as i64, value.into()]);
    }

    fn text(&mut self) -> &mut Text {
        let Given { text, river, .. } = &mut self.given;
        text.get_or_insert_with(|| Text::of(river))
    }

    /// The text as the next call gets it.
    pub fn lent(&mut self) -> Vec<u8> {
        match &self.given.text {
            Some(text) => text.lent().to_vec(),
            None => Text::of(&self.given.river).lent().to_vec(),
        }
    }

    pub fn put(&mut self, place: usize, bytes: &[u8]) {
        self.text().bytes[place..][..bytes.len()].copy_from_slice(bytes);
        let mut numbers = vec![place as i64];
        numbers.extend(bytes.iter().map(|&byte| i64::from(byte)));
        self.line('b', &numbers);
    }

    /// Copies bytes one by one, the first one first.
    pub fn copy(&mut self, from: usize, to: usize, count: usize) {
        let bytes = &mut self.text().bytes;
        (0..count).for_each(|i| bytes[to + i] = bytes[from + i]);
        self.line('m', &[from as i64, to as i64, count as i64]);
    }

    pub fn length(&mut self, length: usize) {
        self.text().length = length;
        self.line('l', &[length as i64]);
    }

    // Calls. Each answers its number.

    /// Writes the line of a call with its answer, and takes all changes back.
    fn answered(
        &mut self,
        letter: char,
        arguments: &[i64],
        number: u32,
        digest: Digest,
        river: Option<River>,
    ) -> u32 {
        let mut numbers = arguments.to_vec();
        numbers.extend([i64::from(number), digest.value() as i64]);
        self.line(letter, &numbers);
        let kind = KINDS.iter().position(|&(kind, _)| kind == letter).expect("a kind");
        self.counts[kind][number as usize] += 1;
        if let (Some(river), false) = (river, self.given.changed) {
            self.river = river;
        }
        self.given =
            Given { figures: self.figures, river: self.river.clone(), changed: false, text: None };
        number
    }

    pub fn check(&mut self) -> u32 {
        let number = check(&set_of(&self.given.figures));
        self.answered('C', &[], number, Digest::new(), None)
    }

    pub fn rows(&mut self) -> u32 {
        let (number, rows) = rows::rows(&set_of(&self.given.figures));
        self.answered('R', &[], number, Digest::new().with_all(&rows), None)
    }

    pub fn published(&mut self) -> u32 {
        let Set { rates, halves, .. } = set_of(&self.given.figures);
        let (number, set) = Set::published(rates, halves);
        self.answered('P', &[], number, Digest::new().with_all(&figures_of(&set)), None)
    }

    pub fn fresh(&mut self, cells: u32) -> u32 {
        let (number, river) = River::fresh(cells);
        self.answered('N', &[cells.into()], number, of_river(&river), Some(river))
    }

    pub fn load(&mut self, cell: u32, substance: u32, change: i64) -> u32 {
        let mut river = self.given.river.clone();
        let number = river.load(cell, substance, change);
        let arguments = [cell.into(), substance.into(), change];
        self.answered('L', &arguments, number, of_river(&river), Some(river))
    }

    pub fn flow(&mut self, part: u32) -> u32 {
        let mut river = self.given.river.clone();
        let (number, left) = river.flow(part);
        self.answered('F', &[part.into()], number, of_river(&river).with_all(&left), Some(river))
    }

    pub fn air(&mut self, cell: u32, constant: u32, seconds: u32, saturation: u32) -> u32 {
        let mut river = self.given.river.clone();
        let (number, added) = river.air(cell, constant, seconds, saturation);
        let arguments = [cell, constant, seconds, saturation].map(i64::from);
        self.answered('A', &arguments, number, of_river(&river).with(added), Some(river))
    }

    pub fn step(&mut self, seconds: u32, light: u32, factors: [u32; 5]) -> u32 {
        let mut river = self.given.river.clone();
        let set = set_of(&self.given.figures);
        let temperature = Temperature::from(factors);
        let number = step(&set, &mut river, seconds, light, &temperature);
        if number == refusal::NONE && !self.given.changed {
            self.count_batches(&set, seconds, light, &temperature);
        }
        let mut arguments = vec![seconds.into(), light.into()];
        arguments.extend(factors.map(i64::from));
        self.answered('S', &arguments, number, of_river(&river), Some(river))
    }

    /// Counts the whole batches of a step that was accepted.
    fn count_batches(&mut self, set: &Set, seconds: u32, light: u32, temperature: &Temperature) {
        let mut rows = [[0; SUBSTANCES]; PROCESSES];
        rows::fill(set, &mut rows);
        let (seconds, light) = (seconds.into(), light.into());
        let conditions = Conditions { set, rows: &rows, seconds, light, temperature };
        let river = &self.given.river;
        let mut made = [0; PROCESSES];
        for cell in 0..river.cells as usize {
            let extents = conditions.extents(river.cell(cell));
            for (process, made) in made.iter_mut().enumerate() {
                let carry = u64::from(river.carries[cell * PROCESSES + process]);
                *made += (carry + extents[process]) / u64::from(BATCH);
            }
        }
        for ((batches, steps), made) in self.batches.iter_mut().zip(made) {
            *batches += made;
            *steps += u64::from(made > 0);
        }
    }

    pub fn totals(&mut self, cell: u32) -> u32 {
        let (number, six) = totals(&set_of(&self.given.figures), &self.given.river, cell);
        self.answered('T', &[cell.into()], number, Digest::new().with_all(&six), None)
    }

    pub fn letter(&mut self, cell: u32) -> u32 {
        let (number, letter) = self.given.river.letter(cell);
        self.answered('Y', &[cell.into()], number, Digest::new().with(letter.into()), None)
    }

    /// A frame by the bits of its readings.
    pub fn frame(&mut self, bits: [u32; 4], form: u32, oxygen: u32, saturation: u32) -> u32 {
        let [nh4, no2, no3, po4] = bits.map(f32::from_bits);
        let reading = f32::from_bits(oxygen);
        let frame_oxygen = match form {
            0 => Oxygen::Mass(reading),
            1 => Oxygen::Percent(reading),
            _ => Oxygen::Missing,
        };
        let frame = Frame { nh4, no2, no3, po4, oxygen: frame_oxygen };
        let (number, amounts) = frame.amounts(saturation);
        let four = [amounts.nh4, amounts.no2, amounts.no3, amounts.hpo4];
        let mark = [i64::from(amounts.oxygen.is_some()), amounts.oxygen.unwrap_or(0)];
        let digest = Digest::new().with_all(&four).with_all(&mark);
        let mut arguments = bits.map(i64::from).to_vec();
        arguments.extend([form, oxygen, saturation].map(i64::from));
        self.answered('M', &arguments, number, digest, None)
    }

    pub fn write(&mut self, output: usize, work: usize) -> u32 {
        let (mut out, mut area) = (vec![35; output], vec![42; work]);
        let number = record::write(&self.given.river, &mut out, &mut area);
        let digest = Digest::new().with_all(&out).with_all(&area);
        self.answered('W', &[output as i64, work as i64], number, digest, None)
    }

    pub fn read(&mut self) -> u32 {
        let (number, river) = record::read(&self.lent());
        self.answered('D', &[], number, of_river(&river), None)
    }

    pub fn lines_of(&mut self, cell: u32) -> u32 {
        let text = self.lent();
        let number = record::lines_number(&text, cell);
        let lines = record::lines(&text, cell);
        let digest = Digest::new().with(lines.len() as i64).with_all(lines);
        self.answered('I', &[cell.into()], number, digest, None)
    }

    pub fn page(&mut self, output: usize) -> u32 {
        let mut out = vec![35; output];
        let number = page::write(&self.given.river, &mut out);
        self.answered('B', &[output as i64], number, Digest::new().with_all(&out), None)
    }
}

fn of_river(river: &River) -> Digest {
    Digest::new().with(river.cells.into()).with_all(&river.amounts).with_all(&river.carries)
}

/// The bytes of a record of so many cells.
pub fn record_bytes(cells: u32) -> usize {
    (cells as usize).min(CELLS) * CELL_BYTES
}
