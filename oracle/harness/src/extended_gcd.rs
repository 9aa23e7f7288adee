//! The extended gcd of the diagonalising, and how often it divides. It is no call of
//! the Rust but a function in it, which a version of its module opens.

use phonors::{snf3x3_counted, snf3x3_opened};

use crate::bench::{call, Call, Timed};
use crate::function::{Function, Outputs};
use crate::inputs::gcds::GcdInput;
use crate::panics::counted;
use crate::port;
use crate::tests::length;

/// r, s and t of the Rust, and the divisions that it makes: its walk again, from its
/// own text with a counter added, which must come to the same end.
pub fn divided(a: i64, b: i64) -> Result<[i64; 4], i64> {
    let answer = counted(|| snf3x3_opened::extended_gcd(a, b));
    let mut divisions = 0;
    let again = counted(|| snf3x3_counted::extended_gcd(a, b, &mut divisions));
    assert_eq!(again, answer);
    let [r, s, t] = answer?;
    Ok([r, s, t, divisions])
}

pub struct ExtendedGcd;

impl Function for ExtendedGcd {
    const VECTORS: usize = 256;

    type Input = GcdInput;

    fn outputs(_: &GcdInput) -> Outputs {
        Outputs::told(4)
    }

    fn port(&GcdInput { a, b }: &GcdInput, outputs: &mut Outputs) -> i64 {
        port::extended_gcd(a, b, &mut outputs.told)
    }

    fn oracle(&GcdInput { a, b }: &GcdInput, outputs: &mut Outputs) -> i64 {
        outputs.answer(|_, told| {
            length(told.len() == 4)?;
            told.copy_from_slice(&divided(a, b)?);
            Ok(())
        })
    }
}

impl Timed for ExtendedGcd {
    fn bare(&GcdInput { a, b }: &GcdInput) -> Call<'_> {
        call([a, b], |&[a, b], _| snf3x3_opened::extended_gcd(a, b))
    }
}

#[cfg(test)]
mod tests {
    use super::*;
    use crate::function::Input;
    use crate::random::Random;
    use crate::refusals::ACCEPTED;
    use crate::{compare, vectors};

    #[test]
    fn points() {
        for (a, b, told) in [
            (2, 2, [2, 0, 1, 1]),
            (4, -2, [-2, 0, 1, 1]),
            (-2, 4, [2, 1, 1, 2]),
            (7, 0, [7, 1, 0, 0]),
            (0, 7, [7, 0, 1, 1]),
            (0, 0, [0, 1, 0, 0]),
        ] {
            assert_eq!(divided(a, b), Ok(told));
        }
        for (a, b) in [
            (i64::MIN, -1),
            (i64::MIN, 1),
            (6_928_140_218_625_461_984, -3),
        ] {
            assert_eq!(divided(a, b), Err(4));
        }
        let [a, b] = [4_660_046_610_375_530_309, 7_540_113_804_746_346_429];
        assert!(matches!(divided(a, b), Ok([1, _, _, 91])));
    }

    /// 13 comes before 4.
    #[test]
    fn wrong_lengths() {
        let input = GcdInput { a: i64::MIN, b: -1 };
        for length in [0, 3, 5] {
            let mut outputs = Outputs::told(length);
            assert_eq!(ExtendedGcd::oracle(&input, &mut outputs), 13);
            assert_eq!(outputs.told, vec![-1; length]);
        }
    }

    /// Both answers, and every number of divisions up to the most. In whole numbers r
    /// is s·a + t·b, and divides both.
    #[test]
    fn every_answer_is_met() {
        let mut random = Random::new(1);
        let mut refused = 0;
        let mut divisions = [0; 128];
        for _ in 0..100_000 {
            let GcdInput { a, b } = Input::random(&mut random);
            let Ok([r, s, t, steps]) = divided(a, b) else {
                refused += 1;
                continue;
            };
            let [a, b, r, s, t] = [a, b, r, s, t].map(i128::from);
            assert_eq!(r, s * a + t * b);
            assert!([a, b].iter().all(|x| x.checked_rem(r).unwrap_or(*x) == 0));
            divisions[steps as usize] += 1;
        }
        assert!((1_000..20_000).contains(&refused), "{refused}");
        for (steps, &met) in divisions.iter().enumerate() {
            assert_eq!(met > 0, steps <= 91, "{steps}: {met}");
        }
    }

    /// A port that tells what the Rust does, but for one change.
    macro_rules! wrong {
        ($name:ident, |$a:ident, $b:ident, $told:ident| $change:expr) => {
            struct $name;

            impl Function for $name {
                type Input = GcdInput;

                fn outputs(input: &GcdInput) -> Outputs {
                    ExtendedGcd::outputs(input)
                }

                fn port(input: &GcdInput, outputs: &mut Outputs) -> i64 {
                    let answer = ExtendedGcd::oracle(input, outputs);
                    if answer == ACCEPTED {
                        let (&GcdInput { a: $a, b: $b }, $told) = (input, &mut outputs.told);
                        $change;
                    }
                    answer
                }

                fn oracle(input: &GcdInput, outputs: &mut Outputs) -> i64 {
                    ExtendedGcd::oracle(input, outputs)
                }
            }
        };
    }

    // The division that only exchanges is not counted.
    wrong!(Miscounting, |a, b, told| {
        told[3] -= i64::from(0 <= a && a.unsigned_abs() < b.unsigned_abs())
    });

    // The gcd is never negative.
    wrong!(Positive, |_a, _b, told| if told[0] < 0 {
        for place in &mut told[..3] {
            *place = place.wrapping_neg();
        }
    });

    #[test]
    fn a_wrong_port_is_a_difference() {
        assert!((1_000..5_000).contains(&compare::run::<Miscounting>(10_000, 1)));
        assert!((100..5_000).contains(&compare::run::<Positive>(10_000, 1)));
    }

    #[test]
    fn vectors_with_refusals() {
        let lines = vectors::lines::<ExtendedGcd>(1);
        let refused = |line: &&String| line.ends_with(" 4 -1 -1 -1 -1");
        assert_eq!(lines.len(), ExtendedGcd::VECTORS);
        assert!(lines.iter().filter(refused).count() >= 10);
    }
}
