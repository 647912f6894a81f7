//! The bank page: its rows, the output, rivers and outputs that are refused.

mod common;

use common::{filled, fresh};
use reference::lists::Random;
use reference::page::{write, ROW_BYTES};
use reference::substances::*;
use reference::River;

/// The substances on the page in its order, with the grains, or µg, of a level of 1.
const SHOWN: [(usize, i64); 6] =
    [(SS, 1), (NH4, W_N), (NO2, W_N), (NO3, W_N), (HPO4, W_P), (O2, W_O)];

/// The page as the format macros give it.
fn plain(river: &River) -> String {
    let mut text = String::new();
    for cell in 1..=river.cells {
        let letter = char::from(river.letter(cell).1);
        text += &format!("{cell:>2}{letter:>2}");
        for (substance, weight) in SHOWN {
            let level = river.amounts[18 * (cell as usize - 1) + substance] / weight;
            let grams = format!("{}.{:03}", level / 1_000_000, level / 1_000 % 1_000);
            text += &format!("{grams:>10}");
        }
        text.push('\n');
    }
    text
}

/// The page in an output of just its length.
fn page(river: &River) -> String {
    let mut output = vec![0xa5; ROW_BYTES * river.cells as usize];
    assert_eq!(write(river, &mut output), 0);
    String::from_utf8(output).unwrap()
}

/// The page of one cell with these amounts of SS, NH4, NO2, NO3, HPO4 and O2.
fn page_of(amounts: [i64; 6]) -> String {
    let mut river = fresh(1);
    for ((substance, _), amount) in SHOWN.into_iter().zip(amounts) {
        river.amounts[substance] = amount;
    }
    page(&river)
}

/// The page of one cell with one level in all columns, less so many grains or µg.
fn page_of_level(level: i64, less: i64) -> String {
    page_of(SHOWN.map(|(_, weight)| level * weight - less))
}

/// A row of one value in all columns.
fn row_of(cell: u32, letter: char, value: &str) -> String {
    format!(" {cell} {letter}{}\n", format!("{value:>10}").repeat(6))
}

#[test]
fn fresh_page() {
    let row = " 1 L     0.000     0.000     0.000     0.000     0.000     0.000\n";
    assert_eq!(page(&fresh(1)), row);
    for cells in 1..=8 {
        let rows: String = (1..=cells).map(|cell| row_of(cell, 'L', "0.000")).collect();
        assert_eq!(page(&fresh(cells)), rows);
    }
}

#[test]
fn levels_are_cut_to_thousandths() {
    for (level, letter, value) in [
        (0, 'L', "0.000"),
        (1, 'L', "0.000"),
        (999, 'L', "0.000"),
        (1_000, 'L', "0.001"),
        (1_001, 'L', "0.001"),
        (1_999, 'L', "0.001"),
        (2_000, 'L', "0.002"),
        (9_999, 'L', "0.009"),
        (10_000, 'L', "0.010"),
        (99_999, 'L', "0.099"),
        (100_000, 'L', "0.100"),
        (999_999, 'L', "0.999"),
        (1_000_000, 'L', "1.000"),
        (1_999_999, 'L', "1.999"),
        (2_000_000, 'N', "2.000"),
        (9_999_999, 'N', "9.999"),
        (10_000_000, 'N', "10.000"),
        (99_999_999, 'N', "99.999"),
        (100_000_000, 'N', "100.000"),
        (448_028_672, 'N', "448.028"),
    ] {
        assert_eq!(page_of_level(level, 0), row_of(1, letter, value));
    }
    // One grain, or µg, short of a level the level is one less.
    assert_eq!(page_of_level(1, 1), row_of(1, 'L', "0.000"));
    assert_eq!(page_of_level(1_000, 1), row_of(1, 'L', "0.000"));
    assert_eq!(page_of_level(2_000, 1), row_of(1, 'L', "0.001"));
    assert_eq!(page_of_level(1_000_000, 1), row_of(1, 'L', "0.999"));
    assert_eq!(page_of_level(2_000_000, 1), row_of(1, 'L', "1.999"));
    assert_eq!(page_of_level(100_000_000, 1), row_of(1, 'N', "99.999"));
}

/// The widest levels there are, and what stands just below 1,000 g.
#[test]
fn widest_levels() {
    let mut river = fresh(8);
    for (place, amount) in river.amounts.iter_mut().enumerate() {
        *amount = HIGHEST[place % 18];
    }
    river.carries = [999_999; 136];
    let values = "  1000.000   448.028   448.028   448.028   992.063  1024.065";
    let rows: String = (1..=8).map(|cell| format!(" {cell} N{values}\n")).collect();
    assert_eq!(page(&river), rows);
    assert_eq!(
        page_of([999_999_999, 0, 0, 0, 0, 1_024_065_540 * W_O]),
        " 1 -   999.999     0.000     0.000     0.000     0.000  1024.065\n"
    );
    assert_eq!(
        page_of([999_999_999, 0, 0, 0, 992_063_000 * W_P - 1, 1_024_065_000 * W_O - 1]),
        " 1 -   999.999     0.000     0.000     0.000   992.062  1024.064\n"
    );
}

/// Each substance has a column and a weight of its own, and no other is on the page.
#[test]
fn order_of_the_columns() {
    let grams = [1, 2, 3, 4, 5, 6].map(|grams| grams * 1_000_000);
    assert_eq!(
        page_of(std::array::from_fn(|column| grams[column] * SHOWN[column].1)),
        " 1 N     1.000     2.000     3.000     4.000     5.000     6.000\n"
    );
    for (column, (substance, weight)) in SHOWN.into_iter().enumerate() {
        let mut river = fresh(2);
        assert_eq!(river.load(2, substance as u32 + 1, 1_000 * weight), 0);
        let mut row = ["     0.000"; 6];
        row[column] = "     0.001";
        let expected = format!("{} 2 L{}\n", row_of(1, 'L', "0.000"), row.concat());
        assert_eq!(page(&river), expected);
        assert_eq!(river.load(2, substance as u32 + 1, -1), 0);
        assert_eq!(page(&river), page(&fresh(2)));
    }
    let others = (0..18).filter(|place| SHOWN.iter().all(|(shown, _)| shown != place));
    let mut river = fresh(2);
    for place in others {
        river.amounts[place] = HIGHEST[place];
        river.amounts[18 + place] = LOWEST[place];
    }
    assert_eq!(page(&river), page(&fresh(2)));
}

#[test]
fn letters() {
    let row = |letter: char, nh4: &str, o2: &str| {
        format!(" 1 {letter}     0.000{nh4:>10}     0.000     0.000     0.000{o2:>10}\n")
    };
    let (oxygen, ammonium) = (2_000_000 * W_O, 1_000_001 * W_N);
    for (o2, nh4, expected) in [
        (oxygen - 1, 0, row('L', "0.000", "1.999")),
        (oxygen - 1, ammonium, row('L', "1.000", "1.999")),
        (0, GRAINS_MAX, row('L', "448.028", "0.000")),
        (oxygen, 0, row('-', "0.000", "2.000")),
        (oxygen, ammonium - 1, row('-', "1.000", "2.000")),
        (oxygen, ammonium, row('N', "1.000", "2.000")),
    ] {
        assert_eq!(page_of([0, nh4, 0, 0, 0, o2]), expected);
    }
}

/// Lengths of the output around that of the page: bytes past the page stay, and in an
/// output too short all do.
#[test]
fn outputs() {
    for cells in 1..=8 {
        let river = filled(cells);
        let expected = plain(&river);
        let length = ROW_BYTES * cells as usize;
        assert_eq!(expected.len(), length);
        for more in [0, 1, 64, 65, 66, 4_000] {
            let mut output = vec![0xa5; length + more];
            assert_eq!(write(&river, &mut output), 0);
            assert_eq!(output[..length], *expected.as_bytes());
            assert!(output[length..].iter().all(|&byte| byte == 0xa5));
        }
        for short in [0, 1, 64, 64 * cells as usize, length - 1] {
            let mut output = vec![0xa5; short];
            assert_eq!(write(&river, &mut output), 12);
            assert!(output.iter().all(|&byte| byte == 0xa5));
        }
    }
}

/// Check 4 comes before 12.
#[test]
fn rivers_out_of_bounds() {
    let mut carry = fresh(1);
    carry.carries[0] = 1_000_000;
    let mut beyond = fresh(7);
    beyond.amounts[7 * 18] = 1;
    let mut below = filled(2);
    below.amounts[SS] = -1;
    let mut above = filled(2);
    above.amounts[18 + O2] = GRAINS_MAX + 1;
    let none = River { cells: 0, ..fresh(1) };
    let nine = River { cells: 9, ..filled(8) };
    for river in [carry, beyond, below, above, none, nine] {
        for length in [0, 1, 65, 520, 1_000] {
            let mut output = vec![0xa5; length];
            assert_eq!(write(&river, &mut output), 4);
            assert!(output.iter().all(|&byte| byte == 0xa5));
        }
    }
}

/// An amount of any size, at its limits, or around a whole µg or thousandth.
fn any_amount(random: &mut Random, substance: usize) -> i64 {
    let (low, high) = (LOWEST[substance], HIGHEST[substance]);
    let weight = SHOWN.iter().find(|(shown, _)| *shown == substance).map_or(1, |shown| shown.1);
    let level = random.scaled((high / weight) as u64) as i64;
    match random.below(8) {
        0 => low,
        1 => high,
        2 => level * weight,
        3 => level * weight - 1,
        4 => (level / 1_000 * 1_000 * weight - 1).max(low),
        5 if low < 0 => -(random.scaled(high as u64) as i64),
        _ => random.scaled(high as u64) as i64,
    }
}

#[test]
fn random_rivers() {
    let mut random = Random::new(8);
    let mut letters = [0; 128];
    for _ in 0..20_000 {
        let mut river = fresh(random.among(1, 8));
        let cells = river.cells as usize;
        for place in 0..18 * cells {
            river.amounts[place] = any_amount(&mut random, place % 18);
        }
        river.carries[..17 * cells].fill(random.among(0, 999_999));
        let page = page(&river);
        assert_eq!(page, plain(&river));
        page.bytes().skip(3).step_by(ROW_BYTES).for_each(|letter| letters[letter as usize] += 1);
    }
    assert!(b"LN-".iter().all(|&letter| letters[letter as usize] > 1_000));
}

/// Every thousandth of a gram that a level can be, by its lowest level and the level
/// just below.
#[test]
fn every_thousandth() {
    let mut below = String::from("     0.000\n");
    for thousandths in 1..=1_024_065 {
        let amount = thousandths * 1_000 * W_O;
        let value = format!("{}.{:03}", thousandths / 1_000, thousandths % 1_000);
        let expected = format!("{value:>10}\n");
        assert_eq!(page_of([0, 0, 0, 0, 0, amount - 1])[54..], below);
        assert_eq!(page_of([0, 0, 0, 0, 0, amount])[54..], expected);
        below = expected;
    }
}
