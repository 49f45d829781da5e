//! A target whose name another package has too.

#[test]
fn passes() {}
