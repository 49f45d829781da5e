//! A target without libtest, which passes whatever its words are.

fn main() {
    println!("{} words", std::env::args().count() - 1);
}
