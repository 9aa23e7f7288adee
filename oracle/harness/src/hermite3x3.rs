//! The Hermite form, which the Rust does not give: a walk written from document 02, by
//! the Rust's extended gcd and checked operations.

use phonors::common::{det_i, matmul_i, MatI, IDENTITY};
use phonors::snf3x3_opened::extended_gcd;

use crate::bench::{call, Call, Timed};
use crate::function::{Function, Input, Line, Outputs};
use crate::inputs::forms;
use crate::inputs::matrices::{self, diag};
use crate::limits::MATRIX_ENTRY;
use crate::panics::counted;
use crate::port;
use crate::random::Random;
use crate::refusals::{OVERFLOW, SINGULAR};
use crate::snf3x3::{flat, lent, typical};
use crate::tests::{length, limit, matrix};

/// The places of the steps: a pivot's row and that of an entry below it in the pivot's
/// column; or the row of an entry above a pivot, and the pivot's.
const PLACES: [[usize; 2]; 3] = [[0, 1], [0, 2], [1, 2]];

/// The steps, each of which changes rows. A wrong walk has others.
#[derive(Clone, Copy)]
pub struct Steps {
    /// The entry below the pivot (i, i), in row j, becomes 0.
    clear: fn(&mut MatI, i: usize, j: usize) -> Result<(), i64>,
    /// The pivot (i, i) becomes positive.
    sign: fn(&mut MatI, i: usize) -> Result<(), i64>,
    /// The entry in row i above the pivot (j, j) becomes its remainder.
    reduce: fn(&mut MatI, i: usize, j: usize) -> Result<(), i64>,
}

const STEPS: Steps = Steps {
    clear,
    sign,
    reduce,
};

fn fits(number: Option<i64>) -> Result<i64, i64> {
    number.ok_or(OVERFLOW)
}

/// x·a + y·b, every number tested.
fn sum([x, a]: [i64; 2], [y, b]: [i64; 2]) -> Result<i64, i64> {
    let [xa, yb] = [fits(x.checked_mul(a))?, fits(y.checked_mul(b))?];
    fits(xa.checked_add(yb))
}

/// The numbers s, t and u, v by which two rows are combined: of a pivot x and an entry y
/// below it they make their gcd and 0.
fn combination(x: i64, y: i64) -> Result<[[i64; 2]; 2], i64> {
    let [r, s, t] = counted(|| extended_gcd(x, y))?;
    let negative = fits(y.checked_neg())?;
    let u = fits(negative.checked_div(r))?;
    let v = fits(x.checked_div(r))?;
    Ok([[s, t], [u, v]])
}

fn clear(m: &mut MatI, i: usize, j: usize) -> Result<(), i64> {
    let [[s, t], [u, v]] = combination(m[i][i], m[j][i])?;
    let [top, low] = [m[i], m[j]];
    for k in 0..3 {
        m[i][k] = sum([s, top[k]], [t, low[k]])?;
        m[j][k] = sum([u, top[k]], [v, low[k]])?;
    }
    Ok(())
}

fn sign(m: &mut MatI, i: usize) -> Result<(), i64> {
    for entry in &mut m[i] {
        *entry = fits(entry.checked_mul(-1))?;
    }
    Ok(())
}

fn reduce(m: &mut MatI, i: usize, j: usize) -> Result<(), i64> {
    let quotient = fits(m[i][j].checked_div_euclid(m[j][j]))?;
    add(m, i, j, fits(quotient.checked_neg())?)
}

/// Row j, so many times, is added to row i.
fn add(m: &mut MatI, i: usize, j: usize, times: i64) -> Result<(), i64> {
    for k in 0..3 {
        m[i][k] = sum([1, m[i][k]], [times, m[j][k]])?;
    }
    Ok(())
}

/// Document 02's order: column 0, column 1, top row first; signs; the entries above,
/// from the left. What is 0 already, or positive, is passed over.
fn walk(steps: Steps, mut m: MatI) -> Result<MatI, i64> {
    for [i, j] in PLACES {
        if m[j][i] != 0 {
            (steps.clear)(&mut m, i, j)?;
        }
    }
    for i in 0..3 {
        if m[i][i] < 0 {
            (steps.sign)(&mut m, i)?;
        }
    }
    for [i, j] in PLACES {
        if m[i][j] != 0 {
            (steps.reduce)(&mut m, i, j)?;
        }
    }
    Ok(m)
}

/// The form by such steps: 3, then 1, then 4.
fn formed_by(steps: Steps, a: MatI) -> Result<MatI, i64> {
    limit(matrices::is_within(&a, MATRIX_ENTRY))?;
    if det_i(&a) == 0 {
        return Err(SINGULAR);
    }
    walk(steps, a)
}

pub fn formed(a: MatI) -> Result<MatI, i64> {
    formed_by(STEPS, a)
}

/// Whether a matrix is accepted, told in every build.
pub fn is_formed(a: MatI) -> bool {
    formed(a).is_ok()
}

/// The same walk by the Rust's own product of matrices, as its diagonalising makes it:
/// what a caller of the Rust would write.
pub fn multiplied(mut m: MatI) -> MatI {
    for [i, j] in PLACES {
        if m[j][i] != 0 {
            let [r, s, t] = extended_gcd(m[i][i], m[j][i]);
            let mut l = IDENTITY;
            [l[i][i], l[i][j]] = [s, t];
            [l[j][i], l[j][j]] = [-m[j][i] / r, m[i][i] / r];
            m = matmul_i(&l, &m);
        }
    }
    for i in 0..3 {
        if m[i][i] < 0 {
            let mut l = IDENTITY;
            l[i][i] = -1;
            m = matmul_i(&l, &m);
        }
    }
    for [i, j] in PLACES {
        if m[i][j] != 0 {
            let mut l = IDENTITY;
            l[i][j] = -m[i][j].div_euclid(m[j][j]);
            m = matmul_i(&l, &m);
        }
    }
    m
}

#[derive(Debug)]
pub struct HermiteInput {
    a: Vec<i64>,
}

impl HermiteInput {
    /// Accepted, with entries of size at most 10.
    pub fn small(random: &mut Random) -> HermiteInput {
        HermiteInput {
            a: typical(random, &[10], is_formed),
        }
    }
}

impl Input for HermiteInput {
    fn at_limits() -> Vec<HermiteInput> {
        let over = MATRIX_ENTRY + 1;
        let lengths = [vec![], vec![1; 8], vec![1; 10], vec![over; 10]];
        let plain = [
            [[0; 3]; 3],
            IDENTITY,
            diag([2, 2, 3]),
            diag([-2, 3, -5]),
            // At the limit and past it; 3 comes before 1.
            [[MATRIX_ENTRY; 3]; 3],
            diag([MATRIX_ENTRY; 3]),
            diag([MATRIX_ENTRY, -MATRIX_ENTRY, MATRIX_ENTRY - 1]),
            diag([over, 1, 1]),
            diag([0, 0, -over]),
            [[1, 0, 0], [0, 1, i64::MAX], [0, 0, 1]],
            [[0; 3], [0; 3], [i64::MIN, 0, 0]],
            // Singular, with no zero in it.
            [[1, 2, 3], [4, 5, 6], [5, 7, 9]],
            [[1, 2, 3], [4, 5, 6], [5, 7, 10]],
        ];
        let known = plain.into_iter().chain(forms::at_limits());
        let lent = lengths.into_iter().chain(known.map(flat));
        lent.map(|a| HermiteInput { a }).collect()
    }

    fn random(random: &mut Random) -> HermiteInput {
        let a = forms::matrix(random);
        HermiteInput { a: lent(random, a) }
    }

    fn typical(random: &mut Random) -> HermiteInput {
        HermiteInput {
            a: typical(random, &matrices::SIZES, is_formed),
        }
    }

    fn write(&self, line: &mut Line) {
        line.slice(&self.a);
    }
}

/// The answer by such steps.
fn answer(input: &HermiteInput, outputs: &mut Outputs, steps: Steps) -> i64 {
    outputs.answer(|slices, _| {
        let a = matrix(&input.a)?;
        length(slices[0].len() == 9)?;
        slices[0].copy_from_slice(formed_by(steps, a)?.as_flattened());
        Ok(())
    })
}

pub struct Hermite3x3;

impl Function for Hermite3x3 {
    const VECTORS: usize = 144;

    type Input = HermiteInput;

    fn outputs(_: &HermiteInput) -> Outputs {
        Outputs::slices(&[9], 0)
    }

    fn port(input: &HermiteInput, outputs: &mut Outputs) -> i64 {
        port::answer(zone::hermite3x3(&input.a, &mut outputs.slices[0]))
    }

    fn oracle(input: &HermiteInput, outputs: &mut Outputs) -> i64 {
        answer(input, outputs, STEPS)
    }
}

impl Timed for Hermite3x3 {
    fn bare(input: &HermiteInput) -> Call<'_> {
        let a = matrix(&input.a).expect("a matrix");
        call(a, |a, _| multiplied(*a))
    }
}

#[cfg(test)]
mod tests {
    use super::*;
    use crate::inputs::forms::{has_same_points, OUTSIDE};
    use crate::{compare, vectors};

    /// The answer, and the form.
    fn asked(a: Vec<i64>) -> (i64, Vec<i64>) {
        let input = HermiteInput { a };
        let mut outputs = Hermite3x3::outputs(&input).unlike();
        let answer = Hermite3x3::oracle(&input, &mut outputs);
        (answer, outputs.slices.remove(0))
    }

    #[test]
    fn points() {
        let form = |a: MatI, h: MatI| assert_eq!(asked(flat(a)), (0, flat(h)));
        form(diag([2, 2, 3]), diag([2, 2, 3]));
        form([[2, 0, 0], [0, 2, 0], [2, 0, 3]], diag([2, 2, 3]));
        form(diag([-2, 3, -5]), diag([2, 3, 5]));
        form(diag([1, 1, 2]), diag([1, 1, 2]));
        form(diag([2, 1, 1]), diag([2, 1, 1]));
        form([[0, 0, 1], [0, 1, 0], [1, 0, 0]], IDENTITY);
        // A quotient is rounded down, also of a negative entry.
        form(
            [[1, -1, -5], [0, 2, -1], [0, 0, 3]],
            [[1, 1, 0], [0, 2, 2], [0, 0, 3]],
        );
    }

    #[test]
    fn refusals() {
        let refused = |a| {
            let (answer, h) = asked(a);
            assert_eq!(h, [-1; 9]);
            answer
        };
        assert_eq!(refused(vec![0; 9]), 1);
        assert_eq!(refused(flat(diag([1, -MATRIX_ENTRY - 1, 0]))), 3);
        assert_eq!(refused(vec![MATRIX_ENTRY + 1; 10]), 13);
        assert_eq!(refused(vec![]), 13);
        for (a, _) in OUTSIDE {
            assert_eq!(refused(flat(a)), 4, "{a:?}");
        }
        // Lengths come before 3.
        let input = HermiteInput {
            a: vec![i64::MIN; 9],
        };
        for length in [0, 8, 10] {
            let mut outputs = Outputs::slices(&[length], 0);
            assert_eq!(Hermite3x3::oracle(&input, &mut outputs), 13);
        }
    }

    /// The step that refuses a matrix, counted from 0, passed over or not.
    fn refused_in(mut m: MatI) -> Option<usize> {
        let mut step = 0;
        for [i, j] in PLACES {
            if m[j][i] != 0 && clear(&mut m, i, j).is_err() {
                return Some(step);
            }
            step += 1;
        }
        for i in 0..3 {
            if m[i][i] < 0 {
                sign(&mut m, i).expect("a sign");
            }
            step += 1;
        }
        for [i, j] in PLACES {
            if m[i][j] != 0 && reduce(&mut m, i, j).is_err() {
                return Some(step);
            }
            step += 1;
        }
        None
    }

    #[test]
    fn every_kind_of_step_that_refuses() {
        for (a, step) in OUTSIDE {
            assert_eq!(refused_in(a), Some(step), "{a:?}");
        }
    }

    fn is_hermite([[a, b, c], [d, e, f], [g, h, i]]: MatI) -> bool {
        let above = [(b, e), (c, i), (f, i)];
        [d, g, h] == [0; 3]
            && [a, e, i].iter().all(|&pivot| pivot > 0)
            && above
                .iter()
                .all(|(entry, pivot)| (0..*pivot).contains(entry))
    }

    /// Every form has its shape, and the points of the matrix.
    #[test]
    fn forms_of_the_same_points() {
        let mut random = Random::new(1);
        let mut accepted = 0;
        for _ in 0..20_000 {
            let a = forms::matrix(&mut random);
            if let Ok(h) = formed(a) {
                assert!(is_hermite(h) && has_same_points(&a, &h), "{a:?}");
                accepted += 1;
            }
        }
        assert!(accepted > 10_000, "{accepted}");
    }

    /// By the Rust's product of matrices the walk ends alike.
    #[test]
    fn the_walks_agree() {
        let mut random = Random::new(1);
        let known = forms::at_limits().into_iter();
        let matrices = known.chain((0..50_000).map(|_| forms::matrix(&mut random)));
        for a in matrices.filter(|a| det_i(a) != 0) {
            assert_eq!(counted(|| multiplied(a)), formed(a), "{a:?}");
        }
    }

    #[test]
    fn every_answer_is_met() {
        let mut random = Random::new(1);
        let answers = (0..20_000).map(|_| asked(HermiteInput::random(&mut random).a));
        let met: Vec<(i64, Vec<i64>)> = answers.collect();
        let count = |wanted| met.iter().filter(|(answer, _)| *answer == wanted).count();
        for (answer, least) in [(0, 10_000), (1, 1_000), (3, 400), (4, 1_000), (13, 150)] {
            assert!(count(answer) > least, "{answer}: {}", count(answer));
        }
    }

    /// Wrong walks: quotients toward zero; a sign that stays; the pivot's own column set
    /// and not worked out; an entry above less the quotient times the pivot's row.
    const WRONG: [Steps; 4] = [
        Steps {
            reduce: |m, i, j| {
                let quotient = fits(m[i][j].checked_div(m[j][j]))?;
                add(m, i, j, fits(quotient.checked_neg())?)
            },
            ..STEPS
        },
        Steps {
            sign: |m, i| if i == 2 { Ok(()) } else { sign(m, i) },
            ..STEPS
        },
        Steps {
            clear: |m, i, j| {
                let [r, ..] = counted(|| extended_gcd(m[i][i], m[j][i]))?;
                let [[s, t], [u, v]] = combination(m[i][i], m[j][i])?;
                let [top, low] = [m[i], m[j]];
                for k in (0..3).filter(|&k| k != i) {
                    m[i][k] = sum([s, top[k]], [t, low[k]])?;
                    m[j][k] = sum([u, top[k]], [v, low[k]])?;
                }
                [m[i][i], m[j][i]] = [r, 0];
                Ok(())
            },
            ..STEPS
        },
        Steps {
            reduce: |m, i, j| {
                let quotient = fits(m[i][j].checked_div_euclid(m[j][j]))?;
                for k in 0..3 {
                    let times = fits(quotient.checked_mul(m[j][k]))?;
                    m[i][k] = fits(m[i][k].checked_sub(times))?;
                }
                Ok(())
            },
            ..STEPS
        },
    ];

    struct Wrong<const WALK: usize>;

    impl<const WALK: usize> Function for Wrong<WALK> {
        type Input = HermiteInput;

        fn outputs(input: &HermiteInput) -> Outputs {
            Hermite3x3::outputs(input)
        }

        fn port(input: &HermiteInput, outputs: &mut Outputs) -> i64 {
            answer(input, outputs, WRONG[WALK])
        }

        fn oracle(input: &HermiteInput, outputs: &mut Outputs) -> i64 {
            Hermite3x3::oracle(input, outputs)
        }
    }

    /// By the cases at the limits alone.
    #[test]
    fn wrong_walks_are_told() {
        let cases = HermiteInput::at_limits().len() as u64;
        let differences = [
            compare::run::<Wrong<0>>(cases, 1),
            compare::run::<Wrong<1>>(cases, 1),
            compare::run::<Wrong<2>>(cases, 1),
            compare::run::<Wrong<3>>(cases, 1),
        ];
        assert!(
            differences.iter().all(|&count| count > 0),
            "{differences:?}"
        );
    }

    #[test]
    fn vectors_with_refusals() {
        let lines = vectors::lines::<Hermite3x3>(1);
        let refused = |line: &&String| line.ends_with(" 4 9 -1 -1 -1 -1 -1 -1 -1 -1 -1");
        assert_eq!(lines.len(), Hermite3x3::VECTORS);
        assert!(3 * lines.iter().filter(refused).count() >= lines.len());
    }

    /// What the bench takes is accepted.
    #[test]
    fn typical_matrices() {
        let mut random = Random::new(1);
        for _ in 0..200 {
            assert_eq!(asked(HermiteInput::typical(&mut random).a).0, 0);
            let small = HermiteInput::small(&mut random);
            assert!(small.a.iter().all(|entry| entry.abs() <= 10));
            assert_eq!(asked(small.a).0, 0);
        }
    }
}
