//! A target without libtest that fails, and prints no end of a line.

fn main() {
    print!("plain, and fails");
    std::process::exit(3);
}
