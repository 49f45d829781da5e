//! A test that aborts its process, beside none.

#[test]
fn aborts() {
    println!("about to abort");
    std::process::abort();
}
