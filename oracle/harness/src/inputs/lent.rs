//! Slices as a caller lends them, now and then of a wrong length.

use crate::random::Random;

/// Once in so many cases.
const WRONG: usize = 100;

/// The numbers of a slice of fixed length.
pub fn fixed(random: &mut Random, numbers: &[i64]) -> Vec<i64> {
    let mut slice = numbers.to_vec();
    if random.one_in(WRONG) {
        damage(random, &mut slice);
    }
    slice
}

/// Gives a slice another length, as a rule.
pub fn damage(random: &mut Random, slice: &mut Vec<i64>) {
    let length = slice.len();
    let wrong = [0, length.saturating_sub(1), length + 1];
    slice.resize(random.pick(&wrong), 1);
}

/// The items over and over, up to a length.
pub fn repeated<T: Copy>(items: &[T], length: usize) -> Vec<T> {
    items.iter().copied().cycle().take(length).collect()
}

#[cfg(test)]
mod tests {
    use super::*;

    #[test]
    fn most_lengths_are_right() {
        let mut random = Random::new(1);
        let lengths: Vec<usize> = (0..2000)
            .map(|_| fixed(&mut random, &[7, 8, 9]).len())
            .collect();
        assert!([0, 2, 3, 4].iter().all(|length| lengths.contains(length)));
        assert!(lengths.iter().filter(|&&length| length == 3).count() > 1900);
    }

    #[test]
    fn repeating() {
        assert_eq!(repeated(&[1, 2, 3], 5), [1, 2, 3, 1, 2]);
        assert_eq!(repeated(&[1, 2, 3], 2), [1, 2]);
        assert!(repeated::<i64>(&[], 5).is_empty());
    }
}
