//! Tests that print what is hard to keep.

use std::io::Write;
use std::process::Command;

#[test]
fn a_line_of_5_megabytes() {
    println!("{}<", "x".repeat(5_000_000));
}

#[test]
fn what_a_child_prints() {
    let child = "echo 'from a child'; echo 'and its error' >&2";
    assert!(Command::new("sh").args(["-c", child]).status().unwrap().success());
    panic!("after its child");
}

#[test]
fn what_is_no_text() {
    std::io::stdout().write_all(b"a byte \xff, a null \0, gr\xc3\xb6\xc3\x9fer\n").unwrap();
    panic!("größer als 你好");
}
