//! A library with tests that pass, and with doctests.

#[cfg(feature = "broken")]
compile_error!("the library can't be built");

/// Adds one.
///
/// ```
/// assert_eq!(ways::next(1), 2);
/// ```
///
/// ```
/// assert_eq!(ways::next(1), 3, "the second example is wrong");
/// ```
pub fn next(number: u32) -> u32 {
    number + 1
}

#[cfg(test)]
mod tests {
    #[test]
    fn is_stable() {
        assert!(!cfg!(unstable));
        assert_eq!(std::env::var_os("RUSTC_BOOTSTRAP"), None);
    }

    #[test]
    fn größer() {
        assert_eq!(super::next(1), 2);
    }

    #[cfg(feature = "more")]
    #[test]
    fn is_there_with_the_feature() {}

    #[test]
    fn tells_where_it_runs() {
        let Some(path) = std::env::var_os("TELL") else { return };
        let directory = std::env::current_dir().unwrap();
        let mut told = vec![format!("{}", directory.display())];
        told.extend(std::env::vars().map(|(name, value)| format!("{name}={value}")));
        told.sort();
        std::fs::write(path, told.join("\0")).unwrap();
    }
}
