//! Tests that run cargo in their own workspace, as one does that tests a tool for tests: what it
//! prints stands among the lines of the run. They are run alone.

use std::process::Command;

/// Whether `cargo test` of this package, which prints where this test does, ends well with words.
fn cargo_test(words: &[&str]) -> bool {
    Command::new(env!("CARGO")).args(["test", "-p", "ends"]).args(words).status().unwrap().success()
}

#[test]
#[ignore = "runs cargo"]
fn runs_another_binary() {
    assert!(cargo_test(&["--test", "it"]));
}

#[test]
#[ignore = "runs cargo"]
fn runs_failing_binaries() {
    assert!(!cargo_test(&["--no-fail-fast", "--test", "plain_fails", "--test", "aborts"]));
}

#[test]
#[ignore = "runs cargo"]
fn runs_its_own_binary() {
    assert!(cargo_test(&["--test", "runs_cargo", "--", "passes_inside", "--ignored"]));
}

#[test]
#[ignore = "runs cargo"]
fn runs_with_lines_of_events() {
    let names = ["--message-format", "json-render-diagnostics", "--test", "exits_late"];
    let events = ["--", "-Z", "unstable-options", "--format", "json", "--report-time"];
    assert!(!cargo_test(&[&names[..], &events[..]].concat()));
}

#[test]
#[ignore = "runs cargo, and crashes"]
fn crashes_after_cargo() {
    assert!(cargo_test(&["--test", "it"]));
    std::process::abort();
}

#[test]
#[ignore = "runs cargo, and exits"]
fn exits_after_cargo() {
    assert!(cargo_test(&["--test", "it"]));
    std::process::exit(0);
}

#[test]
#[ignore = "is run by another one"]
fn passes_inside() {
    assert!(std::env::var_os("CARGO").is_some());
}
