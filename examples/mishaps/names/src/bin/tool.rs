//! A program with a test.

fn main() {
    println!("{}", names::two());
}

#[test]
fn works() {
    assert_eq!(names::two(), 2);
}
