//! Vectors: many calls with what they answered, as text, for another implementation
//! to be compared with. The text depends on nothing but this code.
//!
//! A line is a letter and decimal numbers, each after one blank. A letter of this
//! table makes a call; its line has the arguments, then the number answered and the
//! digest ([`digest`]) of all the answer holds besides.
//!
//! | line | call | digest of |
//! |---|---|---|
//! | `C` | check of the set | nothing |
//! | `R` | rows of the set | 306 entries |
//! | `P` | published set with the set's rate constants and half-saturations | its 83 figures |
//! | `N` cells | fresh river, which becomes the river | the river |
//! | `L` cell substance number | load | the river |
//! | `F` part | flow | the river, the list of what left |
//! | `A` cell constant seconds saturation | air | the river, the amount |
//! | `S` seconds light, five temperature factors | step | the river |
//! | `T` cell | totals | the six |
//! | `Y` cell | letter | its byte |
//! | `M` four readings by their bits, form, oxygen by its bits, saturation | frame (form: 0 mass, 1 percentage, 2 missing) | four amounts; 1 and the O2, or 0 and 0 |
//! | `W` lengths of output and work area | record written | both buffers, whole |
//! | `D` | record read | the river read |
//! | `I` cell | lines of a cell | how many bytes, the bytes |
//! | `B` length of output | bank page written | the output, whole |
//!
//! `G` and 83 figures give the set ([`figures::set_of`] has their order). A river in a
//! digest is its cells, all 144 amounts and all 136 carries. Before `W` the output
//! is filled with 35, the work area with 42; before `B` the output is filled with 35.
//!
//! The river that a call answers is the next call's. A line with a small letter
//! changes something for the next call alone, places counted from 0; after a call
//! on a river changed so, the river is again what it was before the change.
//!
//! | line | change |
//! |---|---|
//! | `f` place value | a figure of the set |
//! | `c` number | the number of cells |
//! | `a` place value | an amount |
//! | `k` place value | a carry |
//! | `b` place bytes | bytes of the text, which is the river's record |
//! | `m` from to count | bytes copied within the text, one by one, the first one first |
//! | `l` length | the text's length |

pub mod digest;
pub mod figures;
mod frames;
mod lasting;
mod limits;
mod pages;
mod records;
mod rivers;
pub mod scene;
mod sets;
mod steps;
mod text;
pub mod uptakes;

use scene::Scene;

/// The letters of the calls, with a name for each.
pub const KINDS: [(char, &str); 15] = [
    ('C', "set"),
    ('R', "rows"),
    ('P', "published"),
    ('N', "fresh"),
    ('L', "load"),
    ('F', "flow"),
    ('A', "air"),
    ('S', "step"),
    ('T', "totals"),
    ('Y', "letter"),
    ('M', "frame"),
    ('W', "write"),
    ('D', "read"),
    ('I', "lines"),
    ('B', "page"),
];

/// Numbers a call may answer: 0 for none, and the checks.
pub const NUMBERS: usize = 13;

/// All vectors.
pub fn all() -> Scene {
    let mut scene = Scene::new(1);
    sets::limits(&mut scene);
    sets::neighbours(&mut scene);
    limits::loads(&mut scene);
    limits::flows(&mut scene);
    limits::air(&mut scene);
    limits::steps(&mut scene);
    limits::cells(&mut scene);
    rivers::damaged(&mut scene);
    steps::too_many(&mut scene);
    steps::out_of_bounds(&mut scene);
    lasting::evolving(&mut scene);
    frames::all(&mut scene);
    records::all(&mut scene);
    pages::all(&mut scene);
    scene
}

/// The table that a program prints which makes the same calls and gets the same
/// answers: calls by kind and number, all of them, how many were equal.
pub fn table(scene: &Scene) -> String {
    let mut table = String::from("call     ");
    (0..NUMBERS).for_each(|number| table += &format!("{number:7}"));
    table += "    all  equal\n";
    let mut all = 0;
    for ((_, name), counts) in KINDS.iter().zip(&scene.counts) {
        let calls = counts.iter().sum::<u64>();
        all += calls;
        table += &format!("{name:9}");
        counts.iter().chain([&calls, &calls]).for_each(|count| table += &format!("{count:7}"));
        table.push('\n');
    }
    table + &format!("{all} calls, {all} equal\nno difference\n")
}
