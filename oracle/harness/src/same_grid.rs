//! Whether two matrices make the same grid, which the Rust does not tell: whether they
//! have the same points, by their Hermite forms.

use phonors::common::{negate_i, transpose_i, MatI};

use crate::bench::{call, Call, Timed};
use crate::function::{Function, Input, Line, Outputs};
use crate::hermite3x3::{formed, is_formed, multiplied};
use crate::inputs::forms::{self, INSIDE, OUTSIDE};
use crate::inputs::matrices::{self, diag};
use crate::limits::MATRIX_ENTRY;
use crate::port;
use crate::random::Random;
use crate::snf3x3::{flat, lent, typical};
use crate::tests::{length, matrix};

/// diag(2,2,3) with twice a row added to another, and a row's sign changed.
const SHEARED: [MatI; 2] = [
    [[2, 0, 0], [0, 2, 0], [2, 0, 3]],
    [[2, 0, 0], [0, -2, 0], [0, 4, -3]],
];

#[derive(Debug)]
pub struct PairInput {
    a: Vec<i64>,
    b: Vec<i64>,
}

impl PairInput {
    fn new(a: MatI, b: MatI) -> PairInput {
        PairInput {
            a: flat(a),
            b: flat(b),
        }
    }
}

impl Input for PairInput {
    fn at_limits() -> Vec<PairInput> {
        let plain = diag([2, 2, 3]);
        let over = diag([1, 1, MATRIX_ENTRY + 1]);
        let mut inputs = Vec::new();
        for length in [0, 8, 10] {
            let [wrong, over] = [vec![1; length], flat(over)];
            inputs.push(PairInput {
                a: wrong.clone(),
                b: over.clone(),
            });
            inputs.push(PairInput { a: over, b: wrong });
        }
        // Every refusal before and after every other.
        let (overflowing, _) = OUTSIDE[0];
        let refused = [plain, [[0; 3]; 3], over, overflowing];
        for a in refused {
            inputs.extend(refused.map(|b| PairInput::new(a, b)));
        }
        // The same points, and the same diagonal of `snf3x3` without them.
        inputs.extend(SHEARED.map(|b| PairInput::new(plain, b)));
        inputs.push(PairInput::new(diag([1, 1, 2]), diag([2, 1, 1])));
        inputs.push(PairInput::new(diag([1, 1, 2]), diag([1, -1, -2])));
        // A row added above and not below; a column added.
        inputs.push(PairInput::new(plain, [[2, 2, 3], [0, 2, 3], [0, 0, 3]]));
        inputs.push(PairInput::new(plain, [[2, 1, 0], [0, 2, 0], [0, 0, 3]]));
        for numbers in [[1, 2, 6], [2, 1, 6], [3, 2, 2], [1, 1, 12], [2, 3, 2]] {
            inputs.push(PairInput::new(plain, diag(numbers)));
        }
        for a in INSIDE {
            let [x, y, z] = a;
            inputs.push(PairInput::new(a, [z, x, y]));
            inputs.push(PairInput::new(a, negate_i(&a)));
            inputs.push(PairInput::new(a, transpose_i(&a)));
        }
        for (a, (b, _)) in INSIDE.into_iter().zip(OUTSIDE) {
            inputs.push(PairInput::new(a, b));
            inputs.push(PairInput::new(b, a));
        }
        inputs
    }

    /// Half of the pairs differ by a factor of determinant 1 or -1, on the left, which
    /// keeps the points, or on the right, which as a rule does not.
    fn random(random: &mut Random) -> PairInput {
        let a = forms::matrix(random);
        let b = match random.below(8) {
            0 => a,
            1..4 => matrices::left_multiple(random, a),
            4 => matrices::right_multiple(random, a),
            5 => matrices::folded(random, a, MATRIX_ENTRY),
            6 => matrices::nudged(random, a),
            _ => forms::matrix(random),
        };
        PairInput {
            a: lent(random, a),
            b: lent(random, b),
        }
    }

    fn typical(random: &mut Random) -> PairInput {
        PairInput {
            a: typical(random, &matrices::SIZES, is_formed),
            b: typical(random, &matrices::SIZES, is_formed),
        }
    }

    fn write(&self, line: &mut Line) {
        line.slice(&self.a);
        line.slice(&self.b);
    }
}

pub struct SameGrid;

impl Function for SameGrid {
    const VECTORS: usize = 128;

    type Input = PairInput;

    fn outputs(_: &PairInput) -> Outputs {
        Outputs::told(1)
    }

    fn port(input: &PairInput, outputs: &mut Outputs) -> i64 {
        port::answer(zone::same_grid(&input.a, &input.b, &mut outputs.told))
    }

    /// Lengths come first, being known beforehand; then the first refusal of the forms
    /// of a and b, in this order, each with its limits.
    fn oracle(input: &PairInput, outputs: &mut Outputs) -> i64 {
        outputs.answer(|_, told| {
            let [a, b] = [matrix(&input.a)?, matrix(&input.b)?];
            length(told.len() == 1)?;
            let [a, b] = [formed(a)?, formed(b)?];
            told[0] = (a == b).into();
            Ok(())
        })
    }
}

impl Timed for SameGrid {
    fn bare(input: &PairInput) -> Call<'_> {
        let pair = [&input.a, &input.b].map(|slice| matrix(slice).expect("a matrix"));
        call(pair, |pair, _| {
            let [a, b] = pair.map(multiplied);
            a == b
        })
    }
}

#[cfg(test)]
mod tests {
    use phonors::common::IDENTITY;
    use phonors::snf3x3::snf3x3;

    use super::*;
    use crate::inputs::forms::has_same_points;
    use crate::panics::counted;
    use crate::{compare, vectors};

    /// The answer, and what it tells.
    fn asked(input: &PairInput) -> (i64, i64) {
        let mut outputs = SameGrid::outputs(input).unlike();
        (SameGrid::oracle(input, &mut outputs), outputs.told[0])
    }

    #[test]
    fn points() {
        let told = |a, b| asked(&PairInput::new(a, b));
        for sheared in SHEARED {
            assert_eq!(told(diag([2, 2, 3]), sheared), (0, 1));
        }
        assert_eq!(told(diag([1, 1, 2]), diag([2, 1, 1])), (0, 0));
        assert_eq!(told(diag([3, 1, 1]), diag([-3, 1, -1])), (0, 1));
    }

    #[test]
    fn the_first_refusal() {
        let [zero, over] = [[[0; 3]; 3], diag([1, 1, MATRIX_ENTRY + 1])];
        let (overflowing, _) = OUTSIDE[0];
        let told = |a, b| asked(&PairInput::new(a, b));
        assert_eq!(told(zero, over), (1, -1));
        assert_eq!(told(over, zero), (3, -1));
        assert_eq!(told(overflowing, zero), (4, -1));
        assert_eq!(told(IDENTITY, overflowing), (4, -1));
    }

    /// 13 for each slice, before every other refusal.
    #[test]
    fn wrong_lengths() {
        let mut input = PairInput::new([[0; 3]; 3], [[i64::MIN; 3]; 3]);
        assert_eq!(SameGrid::oracle(&input, &mut Outputs::told(0)), 13);
        input.b.push(0);
        assert_eq!(asked(&input), (13, -1));
    }

    /// The answer is 1 exactly if the points are the same, by the adjugates and not by
    /// the forms.
    #[test]
    fn the_same_points() {
        let mut random = Random::new(1);
        let mut met = [0; 2];
        for _ in 0..20_000 {
            let input = PairInput::random(&mut random);
            let (0, told) = asked(&input) else {
                continue;
            };
            let [a, b] = [&input.a, &input.b].map(|m| matrix(m).expect("a matrix"));
            assert_eq!(told == 1, has_same_points(&a, &b), "{input:?}");
            met[told as usize] += 1;
        }
        assert!(met.iter().all(|&count| count > 4_000), "{met:?}");
    }

    #[test]
    fn every_answer_is_met() {
        let mut random = Random::new(1);
        let answers = (0..20_000).map(|_| asked(&PairInput::random(&mut random)));
        let met: Vec<(i64, i64)> = answers.collect();
        let count = |wanted| met.iter().filter(|(answer, _)| *answer == wanted).count();
        for (answer, least) in [(0, 8_000), (1, 1_000), (3, 400), (4, 1_000), (13, 150)] {
            assert!(count(answer) > least, "{answer}: {}", count(answer));
        }
    }

    /// The rule that document 01 had: the same diagonal of `snf3x3`.
    struct ByDiagonals;

    impl Function for ByDiagonals {
        type Input = PairInput;

        fn outputs(input: &PairInput) -> Outputs {
            SameGrid::outputs(input)
        }

        fn port(input: &PairInput, outputs: &mut Outputs) -> i64 {
            let answer = SameGrid::oracle(input, outputs);
            let pair = [&input.a, &input.b].map(|m| counted(|| snf3x3(matrix(m).ok()?).ok()));
            if let (0, [Ok(Some(a)), Ok(Some(b))]) = (answer, pair) {
                outputs.told[0] = (a.d_diag == b.d_diag).into();
            }
            answer
        }

        fn oracle(input: &PairInput, outputs: &mut Outputs) -> i64 {
            SameGrid::oracle(input, outputs)
        }
    }

    /// By the cases at the limits alone.
    #[test]
    fn the_old_rule_is_told() {
        let cases = PairInput::at_limits().len() as u64;
        assert!(compare::run::<ByDiagonals>(cases, 1) > 2);
    }

    #[test]
    fn vectors_with_refusals() {
        let lines = vectors::lines::<SameGrid>(1);
        assert_eq!(lines.len(), SameGrid::VECTORS);
        for (end, least) in [(" 4 -1", 20), (" 0 0", 20), (" 0 1", 20)] {
            let count = lines.iter().filter(|line| line.ends_with(end)).count();
            assert!(count >= least, "{end}: {count}");
        }
    }
}
