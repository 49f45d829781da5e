//! More tests than threads, of which some sleep, and others end in no time: each but the first ones
//! waits for a thread.

use std::{thread::sleep, time::Duration};

/// Tests of these names, each of which sleeps for so many microseconds.
macro_rules! sleeping {
    ($($name:ident $micros:expr),*) => {
        $(
            #[test]
            fn $name() {
                sleep(Duration::from_micros($micros));
            }
        )*
    };
}

sleeping! {
    a1 200_000, a2 150_000, a3 100_000, a4 150_000, a5 100_000, a6 200_000,
    b1 0, b2 10, b3 100, b4 1, b5 50, b6 20, b7 0, b8 200, b9 10,
    c1 30, c2 0, c3 0, c4 100, c5 10, c6 0, c7 0, c8 50, c9 1
}
