//! Tests that take their time.

use std::{thread::sleep, time::Duration};

#[test]
fn takes_a_second() {
    println!("half of it");
    sleep(Duration::from_millis(1000));
    println!("all of it");
    assert_eq!(sums::sum(&[]), Some(0));
}

#[test]
fn takes_a_moment() {
    sleep(Duration::from_millis(200));
    assert_eq!(sums::sum(&[7]), Some(7));
}
