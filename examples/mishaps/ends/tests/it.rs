//! A target of this name is in both packages.

#[test]
fn passes() {}
