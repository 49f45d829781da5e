//! A test after whose suite the process ends with a status of its own.

extern "C" {
    fn atexit(call: extern "C" fn()) -> i32;
    fn _exit(status: i32) -> !;
}

extern "C" fn end() {
    unsafe { _exit(7) }
}

#[test]
fn passes() {
    assert_eq!(unsafe { atexit(end) }, 0);
}
