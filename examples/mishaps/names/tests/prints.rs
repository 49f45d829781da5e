//! Tests that print the lines of other tests, as one does that runs a test runner.

use std::io::Write;

/// Writes past the capture of libtest, as a child process does.
fn write(text: &str) {
    std::io::stdout().write_all(text.as_bytes()).unwrap();
    std::io::stdout().flush().unwrap();
}

fn event(event: &str, name: &str) -> String {
    format!("{{ \"type\": \"test\", \"event\": \"{event}\", \"name\": \"{name}\" }}\n")
}

#[test]
fn prints_a_line_of_nextest() {
    write(&event("ok", "names::prints$is_made_up"));
}

#[test]
fn prints_a_start() {
    write(&event("started", "is_made_up"));
}

#[test]
fn prints_a_suite() {
    let begin = "{ \"type\": \"suite\", \"event\": \"started\", \"test_count\": 2 }\n".to_string();
    let end = "{ \"type\": \"suite\", \"event\": \"ok\", \
               \"passed\": 2, \"failed\": 0, \"ignored\": 0 }\n";
    let tests = ["inner_one", "inner_two"].map(|name| event("started", name) + &event("ok", name));
    write(&(begin + &tests.concat() + end));
}

#[test]
fn prints_an_end() {
    write(&event("ok", "never_started"));
}

#[test]
fn prints_its_own_end() {
    write(&event("ok", "prints_its_own_end"));
    panic!("and fails");
}
