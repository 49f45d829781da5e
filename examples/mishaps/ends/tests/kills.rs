//! A test that is killed, with all its process.

extern "C" {
    fn raise(signal: i32) -> i32;
}

#[test]
fn kills() {
    unsafe { raise(9) };
}
