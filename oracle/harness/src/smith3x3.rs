//! The Smith form, whose numbers divide each other, which the Rust does not give: its
//! diagonalising of A and then of the diagonal, joined by its product of matrices.

use phonors::common::{matmul_i, MatI};
use phonors::snf3x3::{snf3x3, Snf3x3 as Diagonalised, Snf3x3Error};
use phonors::{measured, snf3x3_measured};

use crate::bench::{call, Call, Timed};
use crate::function::{Function, Input, Line, Outputs};
use crate::inputs::matrices::{self, diag};
use crate::inputs::walks::{JOIN_BOTH, JOIN_Q, UNDIVIDED};
use crate::limits::MATRIX_ENTRY;
use crate::panics::counted;
use crate::port;
use crate::random::Random;
use crate::snf3x3::{flat, lent, number, typical, MatrixInput};
use crate::tests::{length, limit, matrix};

/// The Rust's call on A, its call on the diagonal matrix of that, and the products of
/// the two P and of the two Q.
fn divided(a: MatI) -> Result<Diagonalised, Snf3x3Error> {
    let first = snf3x3(a)?;
    let second = snf3x3(diag(first.d_diag))?;
    Ok(Diagonalised {
        d_diag: second.d_diag,
        p: matmul_i(&second.p, &first.p),
        q: matmul_i(&first.q, &second.q),
    })
}

/// The answer by such a walk: the entry limit binds A alone.
fn answer(
    input: &SmithInput,
    outputs: &mut Outputs,
    walk: fn(MatI) -> Result<Diagonalised, Snf3x3Error>,
) -> i64 {
    outputs.answer(|slices, _| {
        let a = matrix(&input.a)?;
        length(slices.iter().map(Vec::len).eq([3, 9, 9]))?;
        limit(matrices::is_within(&a, MATRIX_ENTRY))?;
        let answer = counted(|| walk(a))?.map_err(number)?;
        slices[0].copy_from_slice(&answer.d_diag);
        slices[1].copy_from_slice(answer.p.as_flattened());
        slices[2].copy_from_slice(answer.q.as_flattened());
        Ok(())
    })
}

/// Whether a matrix is accepted, told in every build.
fn is_divided(a: MatI) -> bool {
    let walk = || {
        let first = snf3x3_measured::snf3x3(a).ok()?;
        let second = snf3x3_measured::snf3x3(diag(first.d_diag)).ok()?;
        let p = measured::matmul_i(&second.p, &first.p);
        let q = measured::matmul_i(&first.q, &second.q);
        Some([p, q])
    };
    matches!(counted(walk), Ok(Some(_)))
}

#[derive(Debug)]
pub struct SmithInput {
    a: Vec<i64>,
}

impl SmithInput {
    /// Accepted, with entries of size at most 10.
    pub fn small(random: &mut Random) -> SmithInput {
        SmithInput {
            a: typical(random, &[10], is_divided),
        }
    }
}

impl Input for SmithInput {
    /// Those of `snf3x3`, refused joins, and matrices whose first diagonal does not
    /// divide.
    fn at_limits() -> Vec<SmithInput> {
        let joins = JOIN_Q.into_iter().chain(JOIN_BOTH);
        let plain = MatrixInput::at_limits().into_iter().map(|input| input.a);
        let all = plain.chain(joins.chain(UNDIVIDED).map(flat));
        all.map(|a| SmithInput { a }).collect()
    }

    /// Those of `snf3x3`; such that the second call has work to do; and beside refused
    /// joins, which are not met otherwise.
    fn random(random: &mut Random) -> SmithInput {
        let a = match random.below(8) {
            0..2 => matrices::common(random),
            2 => {
                let refused = random.pick(&[JOIN_Q, JOIN_BOTH]);
                let join = random.pick(&refused);
                matrices::beside(random, join)
            }
            _ => matrices::matrix(random),
        };
        SmithInput { a: lent(random, a) }
    }

    fn typical(random: &mut Random) -> SmithInput {
        SmithInput {
            a: typical(random, &matrices::SIZES, is_divided),
        }
    }

    fn write(&self, line: &mut Line) {
        line.slice(&self.a);
    }
}

pub struct Smith3x3;

impl Function for Smith3x3 {
    const VECTORS: usize = 144;

    type Input = SmithInput;

    fn outputs(_: &SmithInput) -> Outputs {
        Outputs::slices(&[3, 9, 9], 0)
    }

    fn port(input: &SmithInput, outputs: &mut Outputs) -> i64 {
        let [d, p, q] = &mut outputs.slices[..] else {
            panic!("three slices");
        };
        port::answer(zone::smith3x3(&input.a, d, p, q))
    }

    fn oracle(input: &SmithInput, outputs: &mut Outputs) -> i64 {
        answer(input, outputs, divided)
    }
}

impl Timed for Smith3x3 {
    /// The Rust has no such call: it makes both calls and the two products.
    fn bare(input: &SmithInput) -> Call<'_> {
        let a = matrix(&input.a).expect("a matrix");
        call(a, |a, _| divided(*a))
    }
}

/// The port's export of `snf3x3`, which stands where the Rust does elsewhere.
pub fn over_snf3x3(input: &SmithInput) -> Call<'_> {
    call(input, |input, outputs| {
        let [d, p, q] = &mut outputs.slices[..] else {
            panic!("three slices");
        };
        port::answer(zone::snf3x3(&input.a, d, p, q, &mut [0]))
    })
}

#[cfg(test)]
mod tests {
    use super::*;
    use crate::inputs::walks::SMALLEST;
    use crate::{compare, vectors};

    /// The Rust's answer, and the outputs.
    fn asked(a: Vec<i64>) -> (i64, Vec<Vec<i64>>) {
        let input = SmithInput { a };
        let mut outputs = Smith3x3::outputs(&input).unlike();
        (Smith3x3::oracle(&input, &mut outputs), outputs.slices)
    }

    #[test]
    fn points() {
        let expected = [
            vec![1, 2, 6],
            vec![0, 1, -1, -1, 0, 0, 0, 3, -2],
            vec![0, -1, 0, -1, 0, 3, -1, 0, 2],
        ];
        let smith = asked(flat(diag([2, 2, 3])));
        assert_eq!(smith, (0, expected.to_vec()));
        // The first diagonal is over the entry limit, which does not bind it.
        let (answer, slices) = asked(flat(UNDIVIDED[5]));
        assert_eq!(
            (answer, &slices[0][..]),
            (0, &[1, 999_999, 999_999_000_000][..])
        );
    }

    #[test]
    fn refusals() {
        let refused = |a| {
            let (answer, slices) = asked(a);
            assert!(slices.iter().flatten().all(|&place| place == -1));
            answer
        };
        assert_eq!(refused(vec![0; 9]), 1);
        assert_eq!(refused(flat(diag([1, -MATRIX_ENTRY - 1, 0]))), 3);
        assert_eq!(refused(flat(SMALLEST[0])), 4);
        for join in JOIN_Q.into_iter().chain(JOIN_BOTH) {
            assert_eq!(refused(flat(join)), 4);
        }
        assert_eq!(refused(vec![MATRIX_ENTRY + 1; 10]), 13);
        assert_eq!(refused(vec![]), 13);
    }

    /// 13 for each output, before 3.
    #[test]
    fn wrong_outputs() {
        let input = SmithInput {
            a: vec![i64::MIN; 9],
        };
        for lengths in [[2, 9, 9], [3, 10, 9], [3, 9, 0]] {
            let mut outputs = Outputs::slices(&lengths, 0);
            assert_eq!(Smith3x3::oracle(&input, &mut outputs), 13);
        }
    }

    type Wide = [[i128; 3]; 3];

    fn wide(m: &[i64]) -> Wide {
        [0, 3, 6].map(|row| [0, 1, 2].map(|k| m[row + k].into()))
    }

    /// Modulo 2^128.
    fn product(a: Wide, b: Wide) -> Wide {
        let cell = |row: [i128; 3], k: usize| {
            let terms = (0..3).map(|j| row[j].wrapping_mul(b[j][k]));
            terms.fold(0, i128::wrapping_add)
        };
        a.map(|row| [0, 1, 2].map(|k| cell(row, k)))
    }

    /// Those of two rows and two columns; those of P and Q are below 2^127.
    fn minors(a: Wide) -> Wide {
        let others = [[1, 2], [2, 0], [0, 1]];
        others.map(|[i, j]| others.map(|[k, l]| a[i][k] * a[j][l] - a[i][l] * a[j][k]))
    }

    /// Modulo 2^128.
    fn det(a: Wide) -> i128 {
        let terms = a[0].iter().zip(minors(a)[0]);
        let terms = terms.map(|(x, minor)| x.wrapping_mul(minor));
        terms.fold(0, i128::wrapping_add)
    }

    fn gcd(numbers: Wide) -> i128 {
        let step = |mut x: i128, &(mut y): &i128| {
            while y != 0 {
                (x, y) = (y, x % y);
            }
            x.abs()
        };
        numbers.iter().flatten().fold(0, step)
    }

    /// P·A·Q = D, det P = 1 and det Q is the sign of det A; and the numbers are those
    /// that the gcds of A's entries and of its minors make.
    #[test]
    fn the_textbook_form() {
        let mut random = Random::new(1);
        let mut accepted = 0;
        for _ in 0..20_000 {
            let a = SmithInput::random(&mut random).a;
            let (0, slices) = asked(a.clone()) else {
                continue;
            };
            accepted += 1;
            let [a, p, q] = [&a, &slices[1], &slices[2]].map(|m| wide(m));
            let [x, y, z] = [0, 1, 2].map(|k| i128::from(slices[0][k]));
            assert_eq!(product(product(p, a), q), [[x, 0, 0], [0, y, 0], [0, 0, z]]);
            assert_eq!((det(p), det(q)), (1, det(a).signum()));
            assert_eq!((x, x * y), (gcd(a), gcd(minors(a))));
            assert!(x * y * z == det(a).abs() && x > 0 && y % x == 0 && z % y == 0);
        }
        assert!(accepted > 12_000, "{accepted}");
    }

    #[test]
    fn every_answer_is_met() {
        let mut random = Random::new(1);
        let inputs: Vec<SmithInput> = (0..20_000)
            .map(|_| SmithInput::random(&mut random))
            .collect();
        let answers = inputs.iter().map(|input| asked(input.a.clone()).0);
        let answers: Vec<i64> = answers.collect();
        let count = |wanted| answers.iter().filter(|&&answer| answer == wanted).count();
        for (answer, least) in [(0, 10_000), (1, 1_000), (3, 400), (4, 3_000), (13, 150)] {
            assert!(count(answer) > least, "{answer}: {}", count(answer));
        }
        // Refused by a join: both calls are through.
        let walked = |input: &SmithInput| counted(|| snf3x3(matrix(&input.a).ok()?).ok());
        let joins = inputs.iter().zip(&answers).filter(|(input, &answer)| {
            let walked = || matches!(walked(input), Ok(Some(_)));
            answer == 4 && walked()
        });
        assert!(joins.count() > 500);
        let undivided = inputs.iter().filter(|input| {
            let Ok(Some(first)) = walked(input) else {
                return false;
            };
            first.d_diag[1] % first.d_diag[0] != 0
        });
        assert!(undivided.count() > 500);
    }

    /// Wrong ports: the two P joined in the other order, the two Q, the second call left
    /// out, and the entry limit for it too.
    const WRONG: [fn(MatI) -> Result<Diagonalised, Snf3x3Error>; 4] = [
        |a| {
            let first = snf3x3(a)?;
            let p = matmul_i(&first.p, &snf3x3(diag(first.d_diag))?.p);
            Ok(Diagonalised { p, ..divided(a)? })
        },
        |a| {
            let first = snf3x3(a)?;
            let q = matmul_i(&snf3x3(diag(first.d_diag))?.q, &first.q);
            Ok(Diagonalised { q, ..divided(a)? })
        },
        snf3x3,
        |a| {
            let within = matrices::is_within(&diag(snf3x3(a)?.d_diag), MATRIX_ENTRY);
            assert!(within, "attempt to pass the entry limit");
            divided(a)
        },
    ];

    struct Wrong<const PORT: usize>;

    impl<const PORT: usize> Function for Wrong<PORT> {
        type Input = SmithInput;

        fn outputs(input: &SmithInput) -> Outputs {
            Smith3x3::outputs(input)
        }

        fn port(input: &SmithInput, outputs: &mut Outputs) -> i64 {
            answer(input, outputs, WRONG[PORT])
        }

        fn oracle(input: &SmithInput, outputs: &mut Outputs) -> i64 {
            Smith3x3::oracle(input, outputs)
        }
    }

    /// By the cases at the limits alone.
    #[test]
    fn wrong_ports_are_told() {
        let cases = SmithInput::at_limits().len() as u64;
        let differences = [
            compare::run::<Wrong<0>>(cases, 1),
            compare::run::<Wrong<1>>(cases, 1),
            compare::run::<Wrong<2>>(cases, 1),
            compare::run::<Wrong<3>>(cases, 1),
        ];
        assert!(
            differences.iter().all(|&count| count > 5),
            "{differences:?}"
        );
    }

    #[test]
    fn vectors_with_many_refusals() {
        let lines = vectors::lines::<Smith3x3>(1);
        let refused = |line: &&String| line.contains(" 4 3 -1 -1 -1 9 -1 ");
        assert_eq!(lines.len(), Smith3x3::VECTORS);
        assert!(3 * lines.iter().filter(refused).count() >= lines.len());
    }

    /// What the bench takes is accepted.
    #[test]
    fn typical_matrices() {
        let mut random = Random::new(1);
        for _ in 0..200 {
            assert_eq!(asked(SmithInput::typical(&mut random).a).0, 0);
            let small = SmithInput::small(&mut random);
            assert!(small.a.iter().all(|entry| entry.abs() <= 10));
            assert_eq!(asked(small.a).0, 0);
        }
    }
}
