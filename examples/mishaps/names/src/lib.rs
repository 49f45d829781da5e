//! Tests with odd names and outputs, in the edition that builds most doctests at once.
//!
//! ```
//! assert_eq!(names::two(), 2);
//! ```
//!
//! ```standalone_crate
//! assert_eq!(names::two(), 2);
//! ```
//!
//! ```standalone_crate
//! assert_eq!(names::two(), 1);
//! ```

/// Returns two.
pub fn two() -> u32 {
    2
}
