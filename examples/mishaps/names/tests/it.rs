//! Names and outputs that are hard to hand on.

use std::io::Write;

/// Writes past the capture of libtest, as a child process does.
fn write(text: &str) {
    std::io::stdout().write_all(text.as_bytes()).unwrap();
    std::io::stdout().flush().unwrap();
}

#[test]
fn leaves_a_line_open() {
    write("no end of a line");
}

#[test]
fn misst_größe() {
    println!("Größe: 2 µm, 😀");
    panic!(
        "Größe\n\u{1b}[31mrot\u{1b}[0m, \u{1b}]8;;file:///x\u{7}link\u{1b}]8;;\u{1b}\\ \
         \u{0}\u{8}\u{fffe} <&>\"']]>"
    );
}

#[test]
fn answers_an_error() -> Result<(), String> {
    Err("a text\nof two lines".to_string())
}

#[test]
#[should_panic(expected = "that")]
fn panics_otherwise() {
    panic!("this");
}

#[test]
#[should_panic]
fn panics_not() {}
