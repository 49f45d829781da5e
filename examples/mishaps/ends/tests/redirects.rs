//! Tests that let standard output go elsewhere, and that print lines of others.

use std::io::Write;
use std::thread::sleep;
use std::time::Duration;

extern "C" {
    fn dup(descriptor: i32) -> i32;
    fn dup2(from: i32, to: i32) -> i32;
    fn open(path: *const u8, flags: i32) -> i32;
}

/// Lets descriptor 1 be a file that keeps nothing, and answers what it was.
fn redirect() -> i32 {
    unsafe {
        let before = dup(1);
        dup2(open(b"/dev/null\0".as_ptr(), 1), 1);
        before
    }
}

fn pause(tenths: u64) {
    sleep(Duration::from_millis(100 * tenths));
}

#[test]
#[ignore = "redirects"]
fn for_a_while() {
    let before = redirect();
    pause(4);
    unsafe { dup2(before, 1) };
}

#[test]
#[ignore = "redirects"]
fn for_a_while_meanwhile() {
    pause(2);
}

#[test]
#[ignore = "redirects"]
fn for_ever() {
    redirect();
}

#[test]
#[ignore = "prints"]
fn prints_a_failure() {
    pause(2);
    let line =
        "{ \"type\": \"test\", \"event\": \"failed\", \"name\": \"prints_a_failure_later\" }\n";
    std::io::stdout().write_all(line.as_bytes()).unwrap();
    pause(2);
}

#[test]
#[ignore = "prints"]
fn prints_a_failure_later() {}

#[test]
#[ignore = "prints"]
fn prints_a_pass() {
    pause(2);
    let line = "{ \"type\": \"test\", \"event\": \"ok\", \"name\": \"prints_a_pass_later\" }\n";
    std::io::stdout().write_all(line.as_bytes()).unwrap();
    pause(2);
}

#[test]
#[ignore = "prints"]
fn prints_a_pass_later() {
    panic!("it failed");
}
