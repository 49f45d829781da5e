//! A test that crashes its process while another one runs, and before a third one has started. It
//! wants two threads.

use std::io::Write;
use std::sync::atomic::{AtomicBool, Ordering};
use std::{thread::sleep, time::Duration};

static WAITS: AtomicBool = AtomicBool::new(false);

#[test]
fn a_waits() {
    WAITS.store(true, Ordering::SeqCst);
    sleep(Duration::from_secs(60));
}

#[test]
fn b_writes_to_nowhere() {
    while !WAITS.load(Ordering::SeqCst) {
        sleep(Duration::from_millis(1));
    }
    // Past the capture of libtest, so that it isn't lost with the process.
    std::io::stderr().write_all(b"about to crash\n").unwrap();
    unsafe { std::ptr::without_provenance_mut::<u8>(8).write_volatile(1) }
}

#[test]
fn c_never_starts() {}
