//! Sums, with tests of every outcome: the example run of `front/session_from_libtest`.

/// Returns the sum of the numbers, or none where it is above the range.
pub fn sum(numbers: &[u32]) -> Option<u32> {
    numbers.iter().try_fold(0, |so_far: u32, number| so_far.checked_add(*number))
}

#[cfg(test)]
mod tests {
    use super::sum;

    #[test]
    fn adds() {
        println!("1 + 2 + 3 = {:?}", sum(&[1, 2, 3]));
        assert_eq!(sum(&[1, 2, 3]), Some(6));
    }

    #[test]
    fn none_above_the_range() {
        assert_eq!(sum(&[u32::MAX, 1]), None);
    }

    #[test]
    #[ignore = "adds four billion numbers"]
    fn adds_very_many() {
        assert_eq!(sum(&vec![1; 4_000_000_000]), Some(4_000_000_000));
    }
}
