//! The rotations of a list as those of the grid.

use phonors::transform_rotations::{transform_rotations, TransformRotationsError};

use crate::bench::{call, Call, Timed};
use crate::function::{Function, Outputs};
use crate::inputs::lent_transforms::TransformInput;
use crate::inputs::matrices::is_within;
use crate::limits::{Q_ENTRY, ROTATIONS, TRANSFORMED_ENTRY};
use crate::panics::counted;
use crate::port;
use crate::refusals::{SINGULAR_Q, SYMMETRY_BROKEN};
use crate::tests::{fixed, length, limit, matrices, matrix, points, rotations_fit};

pub struct TransformRotations;

impl Function for TransformRotations {
    const VECTORS: usize = 256;

    type Input = TransformInput;

    fn outputs(input: &TransformInput) -> Outputs {
        Outputs::slices(&[input.places], 0)
    }

    fn port(input: &TransformInput, outputs: &mut Outputs) -> i64 {
        port::answer(zone::transform_rotations(
            &input.rotations,
            &input.d,
            &input.q,
            &mut outputs.slices[0],
        ))
    }

    /// The length of the output hangs on the number of rotations, so that it is
    /// tested where that is within its limit.
    fn oracle(input: &TransformInput, outputs: &mut Outputs) -> i64 {
        outputs.answer(|slices, _| {
            let rotations = matrices(&input.rotations)?;
            let d = fixed(&input.d)?;
            let q = matrix(&input.q)?;
            limit(rotations.len() <= ROTATIONS)?;
            length(slices[0].len() == input.rotations.len())?;
            limit(rotations_fit(&rotations, TRANSFORMED_ENTRY))?;
            limit(is_within(&q, Q_ENTRY))?;
            points(d)?;
            let transformed = counted(|| transform_rotations(&rotations, d, q))?;
            let list = transformed.map_err(|error| match error {
                TransformRotationsError::SingularQ => SINGULAR_Q,
                TransformRotationsError::SymmetryBroken => SYMMETRY_BROKEN,
            })?;
            slices[0].copy_from_slice(list.as_flattened().as_flattened());
            Ok(())
        })
    }
}

impl Timed for TransformRotations {
    fn bare(input: &TransformInput) -> Call<'_> {
        let rotations = matrices(&input.rotations).expect("matrices");
        let d = fixed(&input.d).expect("three");
        let q = matrix(&input.q).expect("a matrix");
        call((rotations, d, q), |(rotations, d, q), _| {
            transform_rotations(rotations, *d, *q)
        })
    }
}

#[cfg(test)]
mod tests {
    use phonors::common::{det_i, MatI, Vec3I, IDENTITY};

    use super::*;
    use crate::function::Input;
    use crate::inputs::lent_transforms::EXCHANGE;
    use crate::inputs::matrices::diag;
    use crate::inputs::tolerance::{self, DIVISORS, LAST_ROUNDED, ROUNDED};
    use crate::inputs::transforms::{self, exact, Transform};
    use crate::random::Random;
    use crate::refusals::{ACCEPTED, REFUSED_PLACE};
    use crate::{compare, vectors};

    /// The Rust's answer, and the output.
    fn asked(input: &TransformInput) -> (i64, Vec<i64>) {
        let mut outputs = TransformRotations::outputs(input).unlike();
        let answer = TransformRotations::oracle(input, &mut outputs);
        (answer, outputs.slices.remove(0))
    }

    fn transformed(rotations: &[MatI], d: Vec3I, q: MatI) -> (i64, Vec<i64>) {
        asked(&TransformInput::new(rotations, d, q))
    }

    /// The number of a refusal, which leaves -1 in every place.
    fn refused(input: &TransformInput) -> i64 {
        let (answer, out) = asked(input);
        assert_eq!(out, vec![REFUSED_PLACE; input.places]);
        answer
    }

    #[test]
    fn points_of_the_paper() {
        let exchange = EXCHANGE.as_flattened().to_vec();
        let answer = transformed(&[EXCHANGE], [1, 2, 1], IDENTITY);
        assert_eq!(answer, (6, vec![-1; 9]));
        let answer = transformed(&[EXCHANGE], [2, 2, 1], IDENTITY);
        assert_eq!(answer, (0, exchange));
    }

    #[test]
    fn the_way_of_a_rotation() {
        // Q⁻¹·R·Q has the rows 1 -1 0, 0 -1 0, 0 0 1, by hand.
        let [rotation, q] = [EXCHANGE, [[1, 0, 0], [1, -1, 0], [0, 0, 1]]];
        let out = |d| transformed(&[rotation], d, q);
        assert_eq!(out([1; 3]), (0, vec![1, -1, 0, 0, -1, 0, 0, 0, 1]));
        assert_eq!(out([6, 2, 1]), (0, vec![1, -3, 0, 0, -1, 0, 0, 0, 1]));
        assert_eq!(out([2, 6, 1]), (6, vec![-1; 9]));
    }

    #[test]
    fn empty_lists() {
        assert_eq!(transformed(&[], [1; 3], diag([2, 2, 2])), (0, vec![]));
        assert_eq!(transformed(&[], [1; 3], diag([2, 0, 2])).0, 5);
        assert_eq!(transformed(&[], [1; 3], diag([2, 0, 1_001])).0, 3);
        assert_eq!(transformed(&[], [0; 3], IDENTITY).0, 3);
    }

    #[test]
    fn limits_on_both_sides() {
        let of_entry = |entry| transformed(&[diag([1, 1, entry])], [1; 3], IDENTITY).0;
        assert_eq!([100, -100, 101, -101].map(of_entry), [0, 0, 3, 3]);
        let of_q = |entry| transformed(&[IDENTITY], [1; 3], diag([1, 1, entry])).0;
        assert_eq!([1_000, -1_000, 1_001, -1_001].map(of_q), [0, 0, 3, 3]);
        let of_d = |number| transformed(&[IDENTITY], [1, 1, number], IDENTITY).0;
        assert_eq!([1, 256, 0, 257].map(of_d), [0, 0, 3, 3]);
        let of_product = |d| transformed(&[IDENTITY], d, IDENTITY).0;
        assert_eq!([[256, 256, 1], [113, 145, 4]].map(of_product), [0, 3]);
    }

    /// Each refusal before those that would follow it.
    #[test]
    fn the_order_of_the_refusals() {
        let lent = |rotations, d, q| TransformInput {
            rotations: vec![101; rotations],
            d: vec![0; d],
            q: vec![1_001; q],
            places: 7,
        };
        for [rotations, d, q] in [[9 * 193 + 1, 3, 9], [9 * 193, 4, 9], [9 * 193, 3, 8]] {
            assert_eq!(refused(&lent(rotations, d, q)), 13);
        }
        let mut input = lent(9 * 193, 3, 9);
        assert_eq!(refused(&input), 3);
        input.rotations.truncate(9 * 192);
        assert_eq!(refused(&input), 13);
        input.places = 9 * 192;
        assert_eq!(refused(&input), 3);
        input.rotations.fill(1);
        assert_eq!(refused(&input), 3);
        input.d = vec![1, 2, 1];
        assert_eq!(refused(&input), 3);
        input.q.fill(1_000);
        assert_eq!(refused(&input), 5);
        input.q = IDENTITY.as_flattened().to_vec();
        assert_eq!(refused(&input), 6);
        input.d = vec![2; 3];
        assert_eq!(asked(&input), (0, vec![1; 9 * 192]));
    }

    /// Accepted exactly if every fraction is whole, as document 01 says.
    #[test]
    fn whole_numbers_of_a_unimodular_q() {
        let mut random = Random::new(1);
        let mut accepted = 0;
        for kind in [transforms::belonging, transforms::apart] {
            for _ in 0..3_000 {
                let given = kind(&mut random);
                if det_i(&given.q).abs() == 1 {
                    let (answer, out) = asked(&TransformInput::of(&given));
                    let whole = exact(&given).map(|list| list.as_flattened().concat());
                    assert_eq!((answer == 0).then_some(out), whole);
                    accepted += usize::from(answer == 0);
                }
            }
        }
        assert!((3_000..5_000).contains(&accepted), "{accepted}");
    }

    /// 1e-5 is not over 1e-5, and what is below it counts as whole.
    #[test]
    fn the_tolerance() {
        for [qj, dk] in DIVISORS {
            let out = |dk| {
                let given = tolerance::at([0, 1], [qj, dk], [1; 3]);
                asked(&TransformInput::of(&given))
            };
            let identity = IDENTITY.as_flattened().to_vec();
            assert_eq!(out(dk), (0, identity.clone()));
            assert_eq!(out(dk + 1), (0, identity));
            assert_eq!(out(dk - 1).0, 6);
        }
    }

    /// Whole numbers that the Rust takes for broken.
    #[test]
    fn rounding_alone() {
        let answer = |rotation, d, q| {
            let given = Transform {
                rotations: vec![rotation],
                d,
                q,
            };
            assert!(exact(&given).is_some());
            asked(&TransformInput::of(&given)).0
        };
        assert_eq!(answer(diag([5; 3]), [1, 1, 256], ROUNDED), 0);
        assert_eq!(answer(diag([7; 3]), [1, 1, 256], ROUNDED), 6);
        let [q, rotation] = LAST_ROUNDED;
        assert_eq!(answer(rotation, [1; 3], q), 6);
    }

    #[test]
    fn every_answer_is_met() {
        let mut random = Random::new(1);
        let answers = (0..20_000).map(|_| asked(&TransformInput::random(&mut random)).0);
        let met: Vec<i64> = answers.collect();
        let count = |wanted| met.iter().filter(|&&answer| answer == wanted).count();
        for (answer, least) in [(0, 12_000), (3, 800), (5, 600), (6, 2_000), (13, 600)] {
            assert!(count(answer) > least, "{answer}: {}", count(answer));
        }
    }

    /// Works in whole numbers, which is right for a det Q of 1 or -1 only.
    struct Whole;

    impl Function for Whole {
        type Input = TransformInput;

        fn outputs(input: &TransformInput) -> Outputs {
            TransformRotations::outputs(input)
        }

        fn port(input: &TransformInput, outputs: &mut Outputs) -> i64 {
            let answer = TransformRotations::oracle(input, outputs);
            if ![ACCEPTED, SYMMETRY_BROKEN].contains(&answer) {
                return answer;
            }
            let given = Transform {
                rotations: matrices(&input.rotations).unwrap(),
                d: fixed(&input.d).unwrap(),
                q: matrix(&input.q).unwrap(),
            };
            outputs.answer(|slices, _| {
                let list = exact(&given).ok_or(SYMMETRY_BROKEN)?;
                slices[0].copy_from_slice(list.as_flattened().as_flattened());
                Ok(())
            })
        }

        fn oracle(input: &TransformInput, outputs: &mut Outputs) -> i64 {
            TransformRotations::oracle(input, outputs)
        }
    }

    #[test]
    fn rounding_is_compared() {
        assert!((100..500).contains(&compare::run::<Whole>(10_000, 1)));
    }

    /// The two points first; every answer, also with a det Q beyond 1 and -1.
    #[test]
    fn vectors_of_every_answer() {
        let lines = vectors::lines::<TransformRotations>(1);
        assert_eq!(lines.len(), TransformRotations::VECTORS);
        vectors::text(1, &lines);
        let [exchange, q] = ["9 0 1 0 1 0 0 0 0 1", "9 1 0 0 0 1 0 0 0 1"];
        let broken = format!("{exchange} 3 1 2 1 {q} 6 9{}", " -1".repeat(9));
        assert_eq!(lines[0], broken);
        assert_eq!(lines[1], format!("{exchange} 3 2 2 1 {q} 0 {exchange}"));
        let beyond = |input: &TransformInput| {
            let fits = |q: &MatI| is_within(q, Q_ENTRY) && det_i(q).abs() > 1;
            matrix(&input.q).is_ok_and(|q| fits(&q))
        };
        let inputs = TransformInput::at_limits().into_iter();
        let met: Vec<(i64, bool)> = inputs.map(|i| (asked(&i).0, beyond(&i))).collect();
        for (answer, least) in [(0, 60), (3, 30), (5, 3), (6, 50), (13, 20)] {
            let count = met.iter().filter(|met| met.0 == answer).count();
            assert!(count >= least, "{answer}: {count}");
        }
        for answer in [0, 6] {
            assert!(met.iter().filter(|&&met| met == (answer, true)).count() > 30);
        }
    }

    /// What the bench takes is accepted.
    #[test]
    fn typical_lists() {
        let mut random = Random::new(1);
        for _ in 0..200 {
            let input = TransformInput::typical(&mut random);
            let (answer, out) = asked(&input);
            assert_eq!((answer, out.len()), (0, 9 * 48));
        }
    }
}
