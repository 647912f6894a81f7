//! Writes the vectors to standard output, and to standard error how many calls there
//! are and the whole batches that each process makes in rivers that evolve. `vectors
//! table` writes instead the table that a program prints which finds no difference.

use reference::vectors::{all, table};
use std::io::{self, Write};

fn main() -> io::Result<()> {
    let scene = all();
    if std::env::args().nth(1).as_deref() == Some("table") {
        return io::stdout().write_all(table(&scene).as_bytes());
    }
    let calls: u64 = scene.counts.as_flattened().iter().sum();
    eprintln!("{calls} calls in {} bytes", scene.lines.len());
    for (process, (batches, steps)) in (1..).zip(scene.batches) {
        eprintln!("process {process:2}: {batches:9} whole batches in {steps:4} steps");
    }
    io::stdout().write_all(scene.lines.as_bytes())
}
