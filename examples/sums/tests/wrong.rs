//! Tests that expect something else than a sum.

#[test]
fn expects_a_product() {
    println!("2 + 3 – or 2 × 3?");
    eprintln!("about to fail");
    assert_eq!(sums::sum(&[2, 3]), Some(6), "that is the product");
}

#[test]
fn answers_an_error() -> Result<(), String> {
    Err(format!("{:?} is no error", sums::sum(&[1])))
}

#[test]
#[should_panic(expected = "no sum")]
fn panics() {
    sums::sum(&[u32::MAX, u32::MAX]).expect("no sum");
}
