//! Test binaries that end in each way.
//!
//! ```
//! assert_eq!(ends::one(), 1);
//! ```
//!
//! ```
//! assert_eq!(ends::one(), 2);
//! ```
//!
//! ```
//! let one: String = ends::one();
//! ```

#[cfg(feature = "broken")]
compile_error!("the library is broken");

#[cfg(all(doctest, feature = "broken-docs"))]
compile_error!("the doctests are broken");

/// Returns one.
pub fn one() -> u32 {
    1
}

#[cfg(test)]
mod tests {
    #[test]
    fn passes() {
        assert_eq!(super::one(), 1);
    }

    #[test]
    #[ignore = "has a reason"]
    fn is_ignored() {}

    #[test]
    #[ignore]
    fn is_ignored_without_reason() {}
}
