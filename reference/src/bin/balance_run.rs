//! The balance as a program: `balance_run LISTS CALLS SEED` makes so many random
//! lists of so many calls and compares the book of every stretch of cells with
//! what they hold after each call. Exits with 1 at the first difference.

use reference::lists::{run_list, Counts};
use std::process::ExitCode;

fn main() -> ExitCode {
    let mut arguments = std::env::args().skip(1);
    let mut next = |default: u64| match arguments.next() {
        Some(text) => text.parse::<u64>().ok(),
        None => Some(default),
    };
    let (Some(lists), Some(calls), Some(seed)) = (next(200), next(400), next(1)) else {
        eprintln!("balance_run [LISTS [CALLS [SEED]]]");
        return ExitCode::from(2);
    };

    let mut counts = Counts::default();
    for list in 0..lists {
        match run_list(seed.wrapping_add(list), calls) {
            Ok(more) => {
                let more = more.as_flattened();
                counts.as_flattened_mut().iter_mut().zip(more).for_each(|(sum, n)| *sum += n);
            }
            Err(difference) => {
                println!("different: {difference}");
                return ExitCode::from(1);
            }
        }
    }
    println!("{lists} lists of {calls} calls, seeds from {seed}");
    for (kind, numbers) in ["load", "flow", "air", "step"].iter().zip(&counts) {
        print!("{kind:4}");
        for (number, count) in numbers.iter().enumerate().filter(|(_, &count)| count > 0) {
            print!("  {number}: {count}");
        }
        println!();
    }
    println!("book and river equal for all stretches after every call");
    ExitCode::SUCCESS
}
