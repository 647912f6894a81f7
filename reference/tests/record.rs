//! The record: its form, both buffers, the way back, and texts that are none.

mod common;

use common::{filled, fresh};
use reference::lists::Random;
use reference::record::{lines, lines_number, read, write, CELL_BYTES};
use reference::substances::*;
use reference::River;

/// The record as the format macros give it.
fn plain(river: &River) -> Vec<u8> {
    let mut text = String::new();
    for cell in 0..river.cells as usize {
        let amounts = river.amounts[18 * cell..][..18].iter().copied();
        let carries = river.carries[17 * cell..][..17].iter().map(|&carry| i64::from(carry));
        for (line, value) in (1..).zip(amounts.chain(carries)) {
            text += &format!("{:2} {line:2} {value:20}\n", cell + 1);
        }
    }
    text.into_bytes()
}

fn none() -> River {
    River { cells: 0, amounts: [0; 144], carries: [0; 136] }
}

/// A river with amounts of every length, the bounds among them.
fn varied(random: &mut Random) -> River {
    let mut river = fresh(random.among(1, 8));
    let cells = river.cells as usize;
    for (place, amount) in river.amounts[..18 * cells].iter_mut().enumerate() {
        let (low, high) = (LOWEST[place % 18], HIGHEST[place % 18]);
        *amount = match random.below(8) {
            0 => low,
            1 => high,
            2 => 0,
            3 if low < 0 => -(random.scaled(high as u64) as i64),
            _ => random.scaled(high as u64) as i64,
        };
    }
    for carry in &mut river.carries[..17 * cells] {
        *carry = [0, 999_999, random.scaled(999_999) as u32][random.below(3) as usize];
    }
    river
}

#[test]
fn round_trip() {
    let mut random = Random::new(7);
    for _ in 0..500 {
        let river = varied(&mut random);
        let expected = plain(&river);
        let length = CELL_BYTES * river.cells as usize;
        assert_eq!(expected.len(), length);
        let mut output = vec![0xa5; length + random.below(40) as usize];
        let mut work = vec![0x5a; length + random.below(40) as usize];
        assert_eq!(write(&river, &mut output, &mut work), 0);
        assert_eq!(output[..length], expected);
        assert_eq!(work[..length], expected);
        assert!(output[length..].iter().all(|&byte| byte == 0xa5));
        assert!(work[length..].iter().all(|&byte| byte == 0x5a));
        assert_eq!(read(&expected), (0, river.clone()));
        for cell in 1..=river.cells {
            let start = CELL_BYTES * (cell as usize - 1);
            let part = lines(&expected, cell);
            assert_eq!(part, &expected[start..start + CELL_BYTES]);
            assert_eq!(part.as_ptr(), expected[start..].as_ptr());
            assert_eq!(lines_number(&expected, cell), 0);
        }
        for cell in [0, river.cells + 1, u32::MAX] {
            assert!(lines(&expected, cell).is_empty());
            assert_eq!(lines_number(&expected, cell), 5);
        }
    }
}

#[test]
fn short_buffers_and_bad_rivers_leave_every_byte() {
    for cells in 1..=8 {
        let river = filled(cells);
        let length = CELL_BYTES * cells as usize;
        for (output, work, number) in
            [(length - 1, length, 10), (length, length - 1, 10), (0, 0, 10), (length, length, 0)]
        {
            let (mut output, mut work) = (vec![1; output], vec![2; work]);
            assert_eq!(write(&river, &mut output, &mut work), number);
            if number != 0 {
                assert!(output.iter().all(|&b| b == 1) && work.iter().all(|&b| b == 2));
            }
        }
    }
    let mut bad = fresh(1);
    bad.carries[0] = 1_000_000;
    for length in [0, CELL_BYTES] {
        let (mut output, mut work) = (vec![1; length], vec![2; length]);
        assert_eq!(write(&bad, &mut output, &mut work), 4);
        assert!(output.iter().all(|&b| b == 1) && work.iter().all(|&b| b == 2));
    }
}

/// Text that is no record, whatever cell is asked for.
fn refused(text: &[u8]) {
    let shown = String::from_utf8_lossy(text);
    assert_eq!(read(text), (11, none()), "{shown}");
    for cell in [0, 1, 9] {
        assert!(lines(text, cell).is_empty());
        assert_eq!(lines_number(text, cell), 11, "{shown}");
    }
}

#[test]
fn lengths() {
    refused(b"");
    let text = plain(&filled(8));
    for length in [1, 944, 946, 2 * 945 - 1, 8 * 945 - 1] {
        refused(&text[..length]);
    }
    refused(&[&text[..], b"\n"].concat());
    // A ninth cell, numbered as such.
    let ninth = String::from_utf8(text[..CELL_BYTES].to_vec()).unwrap().replace("\n 1", "\n 9");
    refused(&[&text[..], ninth.replacen(" 1", " 9", 1).as_bytes()].concat());
    // The second cell alone, and cells out of order.
    refused(&text[CELL_BYTES..2 * CELL_BYTES]);
    refused(&[&text[CELL_BYTES..2 * CELL_BYTES], &text[..CELL_BYTES]].concat());
}

/// Every byte counts: changed to any other, the text is another river's or none.
#[test]
fn every_byte() {
    let mut river = filled(2);
    river.carries[20] = 123_456;
    let text = plain(&river);
    let mut changed = text.clone();
    for place in 0..text.len() {
        for byte in (0..=255).filter(|&byte| byte != text[place]) {
            changed[place] = byte;
            match read(&changed) {
                (0, other) => {
                    assert_eq!(plain(&other), changed);
                    assert_eq!(lines_number(&changed, 2), 0);
                }
                (number, other) => assert_eq!((number, other), (11, none())),
            }
        }
        changed[place] = text[place];
    }
    assert_eq!(changed, text);
}

/// A one-cell record with 20 columns of one line put in by hand.
fn with(line: usize, value: &str) -> Vec<u8> {
    assert_eq!(value.len(), 20);
    let mut text = plain(&fresh(1));
    text[27 * (line - 1) + 6..][..20].copy_from_slice(value.as_bytes());
    text
}

#[test]
fn values() {
    let aligned = |value: &str| format!("{value:>20}");
    let accepted = [
        (1, "1000000000", 1_000_000_000),
        (3, "10000000000000000", GRAINS_MAX),
        (9, "1000000000000000000", NET_MAX),
        (9, "-1000000000000000000", -NET_MAX),
        (17, "-1", -1),
    ];
    for (line, value, amount) in accepted {
        let mut expected = fresh(1);
        expected.amounts[line - 1] = amount;
        assert_eq!(read(&with(line, &aligned(value))), (0, expected));
    }
    assert_eq!(read(&with(35, &aligned("999999"))).1.carries[16], 999_999);
    for (line, value) in [
        (1, "1000000001"),
        (1, "-1"),
        (3, "10000000000000001"),
        (9, "1000000000000000001"),
        (9, "-1000000000000000001"),
        (9, "9223372036854775808"),
        (9, "-9223372036854775808"),
        (9, "18446744073709551616"),
        (9, "99999999999999999999"),
        (9, "00000000000000000000"),
        (9, "00000000000000000001"),
        (19, "1000000"),
        (35, "-1"),
        (35, "4294967296"),
        (1, "-0"),
        (9, "-0"),
        (9, "-01"),
        (9, "--1"),
        (9, "- 1"),
        (1, "01"),
        (1, "00"),
        (1, "+1"),
        (1, "1 1"),
        (1, "1e3"),
        (1, ""),
        (9, "-"),
        (1, "1.0"),
        (1, "\t1"),
    ] {
        refused(&with(line, &aligned(value)));
    }
    refused(&with(1, &format!("{:<20}", "0")));
    refused(&with(1, &format!("{:>19} ", "0")));
    refused(&with(1, &format!("{:>19}\r", "0")));
}
