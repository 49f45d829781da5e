//! A test that fails at each odd run, and passes at each even one.

#[test]
fn passes_at_the_second_run() {
    let mark = concat!(env!("CARGO_TARGET_TMPDIR"), "/has-failed");
    if std::fs::remove_file(mark).is_err() {
        std::fs::write(mark, "").unwrap();
        panic!("run it again");
    }
}

#[test]
fn passes_each_time() {}
