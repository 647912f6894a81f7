//! Compares the time of a call of the library with that of the reference:
//! `compare_speed LIBRARY REFERENCE`, two programs that take a letter and how many
//! calls, and print a checksum. Fails if they print different ones.

use std::io::{Error, ErrorKind, Write};
use std::process::{Command, ExitCode, Stdio};
use std::time::{Duration, Instant};

/// The letter of each kind of call, and its name. The first makes no call: what
/// its turns cost is taken off the others.
const KINDS: [(char, &str); 10] = [
    ('n', "no call"),
    ('s', "step"),
    ('f', "flow"),
    ('a', "air"),
    ('l', "load"),
    ('r', "rows of a set"),
    ('w', "record write"),
    ('R', "record read"),
    ('p', "frame"),
    ('b', "page write"),
];
/// Runs of each program for each kind, in turn. The best counts, since everything
/// else that the machine does can only slow a run down; many short runs find a
/// moment in which it does little.
const ROUNDS: u32 = 40;
/// How long a run is to take. What starting the program takes is measured apart.
const RUN: Duration = Duration::from_millis(50);
/// The programs make no more calls than this.
const MOST_CALLS: u64 = 1_000_000_000;

fn main() -> Result<ExitCode, Error> {
    let mut arguments = std::env::args().skip(1);
    let (Some(library), Some(reference)) = (arguments.next(), arguments.next()) else {
        return Err(Error::new(ErrorKind::InvalidInput, "asks for two programs"));
    };
    let start = (starting(&library)?, starting(&reference)?);
    let mut empty = (0.0, 0.0);
    let mut equal = true;
    println!("{:14} {:>12} {:>12} {:>7}", "ns per call", "library", "reference", "ratio");
    for (letter, name) in KINDS {
        let calls = calls_for_a_run(&library, letter)?;
        let mut best = (Duration::MAX, Duration::MAX);
        for _ in 0..ROUNDS {
            let (time, checksum) = run(&library, letter, calls)?;
            let (other_time, other_checksum) = run(&reference, letter, calls)?;
            best = (best.0.min(time), best.1.min(other_time));
            if checksum != other_checksum {
                println!(
                    "{name}: checksums of {calls} calls differ, {checksum} and {other_checksum}"
                );
                equal = false;
                break;
            }
        }
        let each = |time: Duration| time.as_nanos() as f64 / calls as f64;
        let made = (best.0.saturating_sub(start.0), best.1.saturating_sub(start.1));
        let times = (each(made.0) - empty.0, each(made.1) - empty.1);
        println!("{name:14} {:12.1} {:12.1} {:7.2}", times.0, times.1, times.0 / times.1);
        if letter == KINDS[0].0 {
            empty = times;
        }
    }
    println!("checksums {}", if equal { "equal" } else { "differ" });
    Ok(if equal { ExitCode::SUCCESS } else { ExitCode::FAILURE })
}

/// How long a program runs that makes no turn, at its best.
fn starting(program: &str) -> Result<Duration, Error> {
    let mut best = Duration::MAX;
    for _ in 0..ROUNDS {
        best = best.min(run(program, KINDS[0].0, 0)?.0);
    }
    Ok(best)
}

/// How many calls of a kind take about as long as a run is to take.
fn calls_for_a_run(program: &str, letter: char) -> Result<u64, Error> {
    let mut calls = 1_000;
    loop {
        let (time, _) = run(program, letter, calls)?;
        if time >= RUN / 4 || calls >= MOST_CALLS {
            let scaled = calls as f64 * RUN.as_secs_f64() / time.as_secs_f64();
            return Ok((scaled as u64).min(MOST_CALLS));
        }
        calls = (calls * 4).min(MOST_CALLS);
    }
}

/// Has a program make so many calls of a kind: how long it ran, and its checksum.
fn run(program: &str, letter: char, calls: u64) -> Result<(Duration, String), Error> {
    let start = Instant::now();
    let mut child = Command::new(program).stdin(Stdio::piped()).stdout(Stdio::piped()).spawn()?;
    let mut input = child.stdin.take().expect("standard input is piped");
    writeln!(input, "{letter} {calls}")?;
    drop(input);
    let output = child.wait_with_output()?;
    let time = start.elapsed();
    if !output.status.success() {
        return Err(Error::other(format!("{program} failed at {letter} {calls}")));
    }
    Ok((time, String::from_utf8_lossy(&output.stdout).trim().to_string()))
}
