//! The book of every stretch against the totals its cells hold: long random lists
//! of calls from fresh rivers, under random accepted sets, compared after each
//! call.

mod common;

use common::{filled, published, MILD};
use reference::book::{Book, Call};
use reference::lists::{run_list, Counts};

#[test]
fn random_lists() {
    let mut counts = Counts::default();
    for seed in 0..300 {
        let more = run_list(seed, 500).unwrap_or_else(|difference| panic!("{difference}"));
        let more = more.as_flattened();
        counts.as_flattened_mut().iter_mut().zip(more).for_each(|(sum, n)| *sum += n);
    }
    // Every number each kind can answer came up, and often enough to tell.
    let numbers: [&[usize]; 4] = [&[0, 5, 8], &[0, 6], &[0, 5, 6], &[0, 6, 7, 8]];
    for (counts, numbers) in counts.iter().zip(numbers) {
        for (number, &count) in counts.iter().enumerate() {
            assert_eq!(count > 100, numbers.contains(&number), "{counts:?}");
        }
    }
}

#[test]
fn empty_list() {
    assert_eq!(run_list(1, 0), Ok(Counts::default()));
}

/// A very long list on one river.
#[test]
fn long_list() {
    assert!(run_list(77, 20_000).is_ok());
}

/// Entries of the book by hand: what passes a border, and what does not.
#[test]
fn entries() {
    let (set, mut river) = (published(), filled(3));
    let mut books = [Book::new(1, 3), Book::new(2, 2), Book::new(2, 3)];
    let mut enter = |call: Call| {
        let answer = call.make(&set, &mut river);
        for book in &mut books {
            book.enter(&set, &call, &answer);
        }
        (answer.number(), books.clone().map(|book| book.totals))
    };
    // 2 grains of nitrate into cell 1, then 5 of bicarbonate into cell 2.
    let load = Call::Load { cell: 1, substance: 5, change: 2 };
    let nitrate = [0, 0, 6, 2, 0, -2];
    assert_eq!(enter(load), (0, [nitrate, [0; 6], [0; 6]]));
    let load = Call::Load { cell: 2, substance: 8, change: 5 };
    let (both, carbon) = ([5, 5, 21, 2, 0, -7], [5, 5, 15, 0, 0, -5]);
    assert_eq!(enter(load), (0, [both, carbon, carbon]));
    // Refused calls and steps enter nothing.
    let refused = Call::Load { cell: 4, substance: 8, change: 5 };
    assert_eq!(enter(refused), (5, [both, carbon, carbon]));
    let refused = Call::Flow { part: 10_001 };
    assert_eq!(enter(refused), (6, [both, carbon, carbon]));
    let step = Call::Step { seconds: 60, light: 1_000, temperature: MILD };
    assert_eq!(enter(step), (0, [both, carbon, carbon]));
    // Organic matter: 3 µg of XALG, 500 thousandths of it oxygen.
    let load = Call::Load { cell: 3, substance: 13, change: 3 };
    let (_, totals) = enter(load);
    assert_eq!(totals[1], carbon);
    assert_eq!(totals[2][2] - carbon[2], 3 * 500 * 19_530);
    assert_eq!(totals[0][5], both[5]);
}
