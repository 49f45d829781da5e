//! A test that doesn't end, for runs that are broken off.

#[test]
#[ignore = "doesn't end"]
fn hangs() {
    loop {
        std::thread::park();
    }
}
