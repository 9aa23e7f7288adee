//! The diagonalising.

use phonors::common::{MatI, IDENTITY, INVERSION};
use phonors::snf3x3::{snf3x3, Snf3x3 as Diagonalised, Snf3x3Error};
use phonors::{snf3x3_counted, snf3x3_measured};

use crate::bench::{call, Call, Timed};
use crate::function::{Function, Input, Line, Outputs};
use crate::inputs::matrices::{self, diag};
use crate::inputs::{lent, walks};
use crate::limits::MATRIX_ENTRY;
use crate::panics::counted;
use crate::port;
use crate::random::Random;
use crate::refusals::{NOT_CONVERGED, SINGULAR};
use crate::tests::{length, limit, matrix};

/// The Rust's own answer.
pub fn diagonalised(a: MatI) -> Result<Diagonalised, i64> {
    limit(matrices::is_within(&a, MATRIX_ENTRY))?;
    counted(|| snf3x3(a))?.map_err(number)
}

/// The refusal of an error.
pub fn number(error: Snf3x3Error) -> i64 {
    match error {
        Snf3x3Error::Singular => SINGULAR,
        Snf3x3Error::NotConverged => NOT_CONVERGED,
    }
}

/// The rounds of a matrix that the Rust diagonalises: its walk again, from its own
/// text with a counter added, which must come to the same end.
fn rounds(a: MatI, answer: &Diagonalised) -> i64 {
    let mut rounds = 0;
    let again = counted(|| snf3x3_counted::snf3x3(a, &mut rounds));
    let again = again.expect("no overflow").expect("an answer");
    assert_eq!(
        (again.d_diag, again.p, again.q),
        (answer.d_diag, answer.p, answer.q)
    );
    rounds
}

/// Whether the Rust diagonalises a matrix, told in every build: where overflow is
/// not checked, it answers wrong numbers.
pub fn is_diagonalised(a: MatI) -> bool {
    matches!(counted(|| snf3x3_measured::snf3x3(a)), Ok(Ok(_)))
}

pub fn flat(a: MatI) -> Vec<i64> {
    a.as_flattened().to_vec()
}

/// Now and then an entry outside the limits or a wrong length.
pub fn lent(random: &mut Random, mut a: MatI) -> Vec<i64> {
    if random.one_in(30) {
        a = matrices::damaged(random, a, MATRIX_ENTRY);
    }
    lent::fixed(random, a.as_flattened())
}

/// A matrix of any kind that a call accepts, with entries of one of these sizes.
pub fn typical(random: &mut Random, sizes: &[i64], accepts: fn(MatI) -> bool) -> Vec<i64> {
    let size = random.pick(sizes);
    loop {
        let a = matrices::of_size(random, size);
        if accepts(a) {
            return flat(a);
        }
    }
}

#[derive(Debug)]
pub struct MatrixInput {
    pub a: Vec<i64>,
}

impl MatrixInput {
    /// Diagonalised, with entries of size at most 10.
    pub fn small(random: &mut Random) -> MatrixInput {
        MatrixInput {
            a: typical(random, &[10], is_diagonalised),
        }
    }
}

impl Input for MatrixInput {
    fn at_limits() -> Vec<MatrixInput> {
        let [over, under] = [MATRIX_ENTRY + 1, MATRIX_ENTRY - 1];
        let lengths = [vec![], vec![1; 8], vec![1; 10], vec![over; 10]];
        let plain = [
            [[0; 3]; 3],
            IDENTITY,
            INVERSION,
            [[0, 1, 0], [0, 0, -1], [1, 0, 0]],
            [[1, 2, 3], [4, 5, 6], [5, 7, 9]],
            [[1, 2, 3], [4, 5, 6], [5, 7, 10]],
            diag([2, 2, 3]),
            diag([3, 1, 1]),
            diag([12, 18, 10]),
            // At the limit and past it.
            [[MATRIX_ENTRY; 3]; 3],
            diag([MATRIX_ENTRY; 3]),
            diag([-MATRIX_ENTRY, 1, 1]),
            diag([MATRIX_ENTRY, under, under - 1]),
            diag([over, 1, 1]),
            diag([1, 1, -over]),
            [[1, 0, 0], [0, 1, i64::MAX], [0, 0, 1]],
            [[0; 3], [0; 3], [i64::MIN, 0, 0]],
        ];
        let matrices = plain.into_iter().chain(walks::at_limits());
        let lent = lengths.into_iter().chain(matrices.map(flat));
        lent.map(|a| MatrixInput { a }).collect()
    }

    fn random(random: &mut Random) -> MatrixInput {
        let a = matrices::matrix(random);
        MatrixInput { a: lent(random, a) }
    }

    fn typical(random: &mut Random) -> MatrixInput {
        MatrixInput {
            a: typical(random, &matrices::SIZES, is_diagonalised),
        }
    }

    fn write(&self, line: &mut Line) {
        line.slice(&self.a);
    }
}

pub struct Snf3x3;

impl Function for Snf3x3 {
    const VECTORS: usize = 144;

    type Input = MatrixInput;

    fn outputs(_: &MatrixInput) -> Outputs {
        Outputs::slices(&[3, 9, 9], 1)
    }

    fn port(input: &MatrixInput, outputs: &mut Outputs) -> i64 {
        let Outputs { slices, told } = outputs;
        let [d, p, q] = &mut slices[..] else {
            panic!("three slices");
        };
        port::answer(zone::snf3x3(&input.a, d, p, q, told))
    }

    fn oracle(input: &MatrixInput, outputs: &mut Outputs) -> i64 {
        outputs.answer(|slices, told| {
            let a = matrix(&input.a)?;
            length(slices.iter().map(Vec::len).eq([3, 9, 9]) && told.len() == 1)?;
            let answer = diagonalised(a)?;
            slices[0].copy_from_slice(&answer.d_diag);
            slices[1].copy_from_slice(answer.p.as_flattened());
            slices[2].copy_from_slice(answer.q.as_flattened());
            told[0] = rounds(a, &answer);
            Ok(())
        })
    }
}

impl Timed for Snf3x3 {
    fn bare(input: &MatrixInput) -> Call<'_> {
        let a = matrix(&input.a).expect("a matrix");
        call(a, |a, _| snf3x3(*a))
    }
}

#[cfg(test)]
mod tests {
    use super::*;
    use crate::inputs::walks::{ROUNDS, SMALLEST};
    use crate::{compare, vectors};

    /// The Rust's answer, and the outputs.
    fn asked(a: Vec<i64>) -> (i64, Outputs) {
        let input = MatrixInput { a };
        let mut outputs = Snf3x3::outputs(&input).unlike();
        (Snf3x3::oracle(&input, &mut outputs), outputs)
    }

    /// How a walk ended, whichever version it is of.
    macro_rules! ended {
        ($walk:expr) => {
            counted(|| $walk).map(|answer| match answer {
                Ok(answer) => Ok((answer.d_diag, answer.p, answer.q)),
                Err(error) => Err(error as i64),
            })
        };
    }

    #[test]
    fn the_versions_agree() {
        let mut random = Random::new(1);
        for _ in 0..100_000 {
            let a = matrices::matrix(&mut random);
            let plain = ended!(snf3x3(a));
            assert_eq!(ended!(snf3x3_counted::snf3x3(a, &mut 0)), plain);
            assert_eq!(ended!(snf3x3_measured::snf3x3(a)), plain);
        }
    }

    #[test]
    fn points() {
        let (answer, outputs) = asked(flat(diag([2, 2, 3])));
        assert_eq!((answer, &outputs.told[..]), (0, &[1][..]));
        assert_eq!(outputs.slices[0], [2, 1, 6]);
        let (answer, outputs) = asked(flat(diag([3, 1, 1])));
        let expected = [
            vec![1, 1, 3],
            vec![0, 1, 0, 0, 0, 1, 1, 0, 0],
            vec![0, 0, 1, 1, 0, 0, 0, 1, 0],
        ];
        assert_eq!((answer, outputs.slices), (0, expected.to_vec()));
        for (a, rounds) in ROUNDS {
            let (answer, outputs) = asked(flat(a));
            assert_eq!((answer, outputs.told), (0, vec![rounds]));
        }
    }

    #[test]
    fn refusals() {
        let refused = |a| {
            let (answer, outputs) = asked(a);
            assert!(outputs.slices.iter().flatten().all(|&place| place == -1));
            assert_eq!(outputs.told, [-1]);
            answer
        };
        assert_eq!(refused(vec![0; 9]), 1);
        assert_eq!(refused(flat(diag([1, -MATRIX_ENTRY - 1, 0]))), 3);
        assert_eq!(refused(flat(SMALLEST[0])), 4);
        assert_eq!(refused(vec![MATRIX_ENTRY + 1; 10]), 13);
        assert_eq!(refused(vec![]), 13);
    }

    /// 13 for each output, before 3.
    #[test]
    fn wrong_outputs() {
        let input = MatrixInput {
            a: vec![i64::MIN; 9],
        };
        for [d, p, q, told] in [[2, 9, 9, 1], [3, 10, 9, 1], [3, 9, 0, 1], [3, 9, 9, 2]] {
            let mut outputs = Outputs::slices(&[d, p, q], told);
            assert_eq!(Snf3x3::oracle(&input, &mut outputs), 13);
        }
    }

    #[test]
    fn every_answer_is_met() {
        let mut random = Random::new(1);
        let answers = (0..20_000).map(|_| asked(MatrixInput::random(&mut random).a));
        let met: Vec<(i64, Outputs)> = answers.collect();
        let count = |wanted| met.iter().filter(|(answer, _)| *answer == wanted).count();
        for (answer, least) in [(0, 10_000), (1, 2_000), (3, 400), (4, 3_000), (13, 150)] {
            assert!(count(answer) > least, "{answer}: {}", count(answer));
        }
        let count = |wanted| {
            met.iter()
                .filter(|(_, outputs)| outputs.told == [wanted])
                .count()
        };
        for (rounds, least) in [(1, 9_000), (2, 500), (3, 100), (4, 10)] {
            assert!(count(rounds) > least, "{rounds}: {}", count(rounds));
        }
    }

    /// Counts one round less where there are three or more.
    struct Miscounting;

    impl Function for Miscounting {
        type Input = MatrixInput;

        fn outputs(input: &MatrixInput) -> Outputs {
            Snf3x3::outputs(input)
        }

        fn port(input: &MatrixInput, outputs: &mut Outputs) -> i64 {
            let answer = Snf3x3::oracle(input, outputs);
            if outputs.told.first() > Some(&2) {
                outputs.told[0] -= 1;
            }
            answer
        }

        fn oracle(input: &MatrixInput, outputs: &mut Outputs) -> i64 {
            Snf3x3::oracle(input, outputs)
        }
    }

    #[test]
    fn a_wrong_count_is_a_difference() {
        assert!((20..500).contains(&compare::run::<Miscounting>(10_000, 1)));
    }

    #[test]
    fn vectors_with_many_refusals() {
        let lines = vectors::lines::<Snf3x3>(1);
        let refused = |line: &&String| line.contains(" 4 3 -1 -1 -1 9 -1 ");
        assert!(3 * lines.iter().filter(refused).count() >= lines.len());
    }

    /// What the bench takes is diagonalised.
    #[test]
    fn typical_matrices() {
        let mut random = Random::new(1);
        for _ in 0..200 {
            assert_eq!(asked(MatrixInput::typical(&mut random).a).0, 0);
            let small = MatrixInput::small(&mut random);
            assert!(small.a.iter().all(|entry| entry.abs() <= 10));
            assert_eq!(asked(small.a).0, 0);
        }
    }
}
