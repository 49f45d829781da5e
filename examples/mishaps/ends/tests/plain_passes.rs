//! A target without libtest that passes, and prints no end of a line.

fn main() {
    print!("plain, and passes");
}
