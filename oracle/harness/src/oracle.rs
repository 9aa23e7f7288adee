//! What the Rust answers, in the form of the exports: the number, and every
//! place of every output.

use crate::refusals::{ACCEPTED, OVERFLOW, REFUSED_PLACE, WRONG_LENGTH};

/// An integer function of Rust with the signature of the port's export.
macro_rules! checked {
    ($($name:ident($($operand:ident),+);)+) => {$(
        pub fn $name($($operand: i64,)+ told: &mut [i64]) -> i64 {
            tell(i64::$name($($operand),+), told)
        }
    )+};
}

checked! {
    checked_add(a, b);
    checked_sub(a, b);
    checked_mul(a, b);
    checked_div_euclid(a, b);
    checked_rem_euclid(a, b);
    checked_div(a, b);
    checked_rem(a, b);
    checked_neg(a);
}

/// Hands over a value, or the refusal of one that 64 bits do not hold.
fn tell(value: Option<i64>, told: &mut [i64]) -> i64 {
    match (value, told) {
        (Some(value), [place]) => {
            *place = value;
            ACCEPTED
        }
        (None, [place]) => {
            *place = REFUSED_PLACE;
            OVERFLOW
        }
        (_, told) => {
            told.fill(REFUSED_PLACE);
            WRONG_LENGTH
        }
    }
}

#[cfg(test)]
mod tests {
    use super::*;

    #[test]
    fn answers() {
        let mut told = [7];
        assert_eq!((checked_div_euclid(-7, 2, &mut told), told), (0, [-4]));
        assert_eq!((checked_rem_euclid(-7, 2, &mut told), told), (0, [1]));
        assert_eq!((checked_div(-7, 2, &mut told), told), (0, [-3]));
        assert_eq!((checked_rem(-7, 2, &mut told), told), (0, [-1]));
        assert_eq!((checked_neg(i64::MIN, &mut told), told), (4, [-1]));
        assert_eq!((checked_rem(i64::MIN, -1, &mut told), told), (4, [-1]));
        assert_eq!((checked_div(1, 0, &mut told), told), (4, [-1]));
    }

    #[test]
    fn wrong_lengths() {
        let mut told = [7; 3];
        assert_eq!((checked_add(1, 2, &mut told), told), (13, [-1; 3]));
        assert_eq!(checked_add(1, 2, &mut []), 13);
    }
}
