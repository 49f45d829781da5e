//! A test that ends its process as if all were well.

#[test]
fn exits() {
    std::process::exit(0);
}
