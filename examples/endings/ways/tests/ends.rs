//! A test for each way in which one can end.

use std::io::Write;
use std::process::{abort, exit, Command};
use std::time::Duration;

extern "C" {
    fn close(descriptor: i32) -> i32;
    fn raise(signal: i32) -> i32;
}

/// It comes first in the order of the names, and still runs when a test after it has ended.
#[test]
fn a_moment() {
    std::thread::sleep(Duration::from_millis(300));
}

#[test]
fn passes() {
    println!("fine");
}

#[test]
fn fails() {
    assert_eq!(1, 2, "one is not two");
}

#[test]
fn answers_an_error() -> Result<(), String> {
    Err("no luck".into())
}

#[test]
fn panics_in_a_thread_that_is_joined() {
    std::thread::spawn(|| panic!("in a thread")).join().unwrap();
}

#[test]
fn panics_in_a_thread_that_is_left() {
    let _ = std::thread::spawn(|| panic!("in a thread")).join();
}

#[test]
#[should_panic]
fn panics_as_it_should() {
    panic!("as it should");
}

#[test]
fn aborts() {
    abort();
}

#[test]
fn exits_with_0() {
    exit(0);
}

#[test]
fn exits_with_7() {
    exit(7);
}

#[test]
fn exits_with_101() {
    exit(101);
}

#[test]
fn segfaults() {
    // A raised signal would only be the first one, which the standard library takes.
    unsafe { std::ptr::without_provenance_mut::<u8>(1).write_volatile(1) };
}

#[test]
fn overflows_its_stack() {
    #[allow(unconditional_recursion)]
    fn deeper(depth: u64) -> u64 {
        std::hint::black_box([depth; 100]);
        deeper(std::hint::black_box(depth) + 1) + 1
    }
    deeper(0);
}

#[test]
fn hangs() {
    std::thread::sleep(Duration::from_secs(600));
}

#[test]
fn is_killed() {
    unsafe { raise(9) };
}

#[test]
fn leaks_a_child() {
    Command::new("sleep").arg("600").spawn().unwrap();
}

#[test]
fn closes_descriptor_1() {
    unsafe { close(1) };
}

#[test]
fn prints_that_it_failed() {
    println!("test prints_that_it_failed ... FAILED\n\ntest result: FAILED. 0 passed; 1 failed");
}

#[test]
fn prints_that_it_passed() {
    print!("test prints_that_it_passed ... ok\n\ntest result: ok. 1 passed; 0 failed; ");
    print!("0 ignored; 0 measured; 16 filtered out; finished in 0.00s\n\n");
    std::io::stdout().flush().unwrap();
    exit(0);
}

#[test]
fn passes_at_the_second_try() {
    let marker = std::env::var_os("MARKER").unwrap_or_default();
    let is_second = std::path::Path::new(&marker).exists();
    std::fs::write(&marker, "").ok();
    assert!(is_second || marker.is_empty(), "the first try");
}

#[test]
#[ignore]
fn is_ignored() {}
