//! The RWQM1 reach stepper: 18 substances and 17 processes in a train of one to
//! eight cells, in whole numbers throughout.
//!
//! Every call answers a number: 0, or the first check that refuses it. A refused
//! call leaves river and buffers as they were and answers zeros besides. Cells and
//! substances are counted from 1 in calls, and from 0 inside the arrays.

pub mod book;
pub mod extents;
pub mod frame;
pub mod input;
pub mod lists;
pub mod page;
pub mod record;
pub mod river;
pub mod rows;
pub mod sets;
pub mod step;
pub mod substances;
pub mod vectors;

pub use frame::{Amounts, Frame, Oxygen};
pub use river::{totals, River};
pub use rows::{batch_sizes, rows};
pub use sets::{check, Fractions, Halves, Inert, Rates, Set, Yields};
pub use step::{step, Stepper, Temperature};

/// The numbers a refused call answers, by what they complain of.
pub mod refusal {
    /// Nothing refuses the call.
    pub const NONE: u32 = 0;
    /// The fractions of an organic do not add to 1,000.
    pub const FRACTIONS: u32 = 1;
    /// A figure of a set is out of range.
    pub const FIGURE: u32 = 2;
    /// A process would run the wrong way round.
    pub const DIRECTION: u32 = 3;
    /// The river is not one in bounds.
    pub const RIVER: u32 = 4;
    /// The cell or substance does not exist.
    pub const PLACE: u32 = 5;
    /// An outer condition (seconds, part, factor, saturation) is out of range.
    pub const CONDITION: u32 = 6;
    /// A process reaches too many batches.
    pub const BATCHES: u32 = 7;
    /// An amount would end outside its bounds.
    pub const AMOUNT: u32 = 8;
    /// A reading is not one of 0 to below 256.
    pub const READING: u32 = 9;
    /// A buffer is too short for the record.
    pub const BUFFER: u32 = 10;
    /// The text is not a record.
    pub const TEXT: u32 = 11;
    /// The output is too short for the bank page.
    pub const PAGE: u32 = 12;
}
