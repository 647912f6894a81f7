//! The programs: the fresh record, a record copied or refused, its bank page, the
//! balance.

mod common;

use common::filled;
use reference::page;
use reference::record::write;
use std::io::Write;
use std::process::{Command, Output, Stdio};

fn run(program: &str, arguments: &[&str], input: &[u8]) -> Output {
    let mut child = Command::new(program)
        .args(arguments)
        .stdin(Stdio::piped())
        .stdout(Stdio::piped())
        .spawn()
        .unwrap();
    // A program that takes no input may be gone before it is written.
    let _ = child.stdin.take().unwrap().write_all(input);
    child.wait_with_output().unwrap()
}

#[test]
fn fresh_record() {
    let output = run(env!("CARGO_BIN_EXE_fresh_record"), &[], b"");
    let expected: String = (1..=35).map(|line| format!(" 1 {line:2} {:20}\n", 0)).collect();
    assert!(output.status.success());
    assert_eq!(output.stdout, expected.as_bytes());
}

#[test]
fn copy_record() {
    let copy = |text: &[u8]| run(env!("CARGO_BIN_EXE_copy_record"), &[], text).stdout;
    for cells in 1..=8 {
        let length = cells as usize * 945;
        let (mut text, mut work) = (vec![0; length], vec![0; length]);
        assert_eq!(write(&filled(cells), &mut text, &mut work), 0);
        assert_eq!(copy(&text), text);
        assert_eq!(copy(&text[1..]), b"11\n");
    }
    assert_eq!(copy(b""), b"11\n");
}

#[test]
fn bank_page() {
    let page_of = |text: &[u8]| run(env!("CARGO_BIN_EXE_bank_page"), &[], text).stdout;
    for cells in 1..=8 {
        let length = cells as usize * 945;
        let (mut text, mut work) = (vec![0; length], vec![0; length]);
        assert_eq!(write(&filled(cells), &mut text, &mut work), 0);
        let mut page = vec![0; cells as usize * 65];
        assert_eq!(page::write(&filled(cells), &mut page), 0);
        assert_eq!(page_of(&text), page);
        assert_eq!(page_of(&text[1..]), b"11\n");
    }
    assert_eq!(page_of(b""), b"11\n");
}

#[test]
fn balance_run() {
    let output = run(env!("CARGO_BIN_EXE_balance_run"), &["20", "100", "9"], b"");
    assert!(output.status.success());
    let text = String::from_utf8(output.stdout).unwrap();
    assert!(text.ends_with("book and river equal for all stretches after every call\n"), "{text}");
}
