//! Integer matrices: A for diagonalising, and unimodular ones.

use phonors::common::{matmul_i, transpose_i, MatI, Vec3I, IDENTITY};

use crate::inputs::numbers;
use crate::limits::MATRIX_ENTRY;
use crate::random::Random;

/// Sizes of the entries of A, each as often as the others: most overflows of the
/// diagonalising need large ones, most of its branches small ones.
pub const SIZES: [i64; 7] = [3, 10, 100, 1_000, 10_000, 100_000, MATRIX_ENTRY];

/// Elementary steps that a matrix is folded by, at most.
const STEPS: usize = 12;

/// A matrix A within the limits. Of those with large entries only the special
/// ones are diagonalised without an overflow.
pub fn matrix(random: &mut Random) -> MatI {
    let size = random.pick(&SIZES);
    of_size(random, size)
}

/// A matrix of any kind, with entries of size at most `size`.
pub fn of_size(random: &mut Random, size: i64) -> MatI {
    match random.below(14) {
        0 => singular(random, size),
        1 => nearly_singular(random, size),
        2 => unimodular(random, size),
        3 => extreme(random, size),
        4 => diagonal(random, size),
        5 => {
            let diagonal = diagonal(random, size);
            folded(random, diagonal, size)
        }
        6 => sparse(random, size),
        7 => chained(random, size),
        _ => entries(random, size),
    }
}

/// The matrix with one entry outside a limit.
pub fn damaged(random: &mut Random, mut a: MatI, limit: i64) -> MatI {
    a[random.below(3)][random.below(3)] = numbers::outside(random, limit);
    a
}

pub fn is_within(a: &MatI, size: i64) -> bool {
    a.iter()
        .flatten()
        .all(|entry| (-size..=size).contains(entry))
}

/// Entries of size at most `size`.
pub fn entries(random: &mut Random, size: i64) -> MatI {
    [[(); 3]; 3].map(|row| row.map(|()| random.within(size)))
}

/// Entries that are 0 or of the full size.
fn extreme(random: &mut Random, size: i64) -> MatI {
    [[(); 3]; 3].map(|row| row.map(|()| random.pick(&[-size, 0, size])))
}

/// A row, or a column, that the others make.
pub fn singular(random: &mut Random, size: i64) -> MatI {
    let mut a = entries(random, size / 2);
    if random.one_in(4) {
        a[1] = a[0].map(|entry| -entry);
    }
    let [x, y] = [random.within(1), random.within(1)];
    a[2] = [0, 1, 2].map(|k| x * a[0][k] + y * a[1][k]);
    random.shuffle(&mut a);
    if random.coin() {
        transpose_i(&a)
    } else {
        a
    }
}

/// A singular matrix but for one entry, which is moved by 1.
fn nearly_singular(random: &mut Random, size: i64) -> MatI {
    let a = singular(random, size);
    nudged(random, a)
}

/// The matrix with one entry moved by 1.
pub fn nudged(random: &mut Random, mut a: MatI) -> MatI {
    let entry = &mut a[random.below(3)][random.below(3)];
    // Not away from zero, where the limit may be; a zero becomes 1.
    *entry += if *entry > 0 { -1 } else { 1 };
    a
}

/// Zeros among the entries.
fn sparse(random: &mut Random, size: i64) -> MatI {
    [[(); 3]; 3].map(|row| row.map(|()| random.within(size) * random.pick(&[0, 1, 1])))
}

/// The form that takes the most rounds: each number has divisors in common with
/// the next, which stands in its row or its column.
fn chained(random: &mut Random, size: i64) -> MatI {
    let [x, y, z, u, v] = [(); 5].map(|()| smooth_number(random, size));
    let mut a = [[x, y, 0], [0, z, u], [0, 0, v]];
    random.shuffle(&mut a);
    a
}

/// A number of prime factors up to 5, and of size at most `size`.
fn smooth_number(random: &mut Random, size: i64) -> i64 {
    let mut number = random.pick(&[1, -1]);
    for _ in 0..random.below(20) {
        let next: i64 = number * random.pick(&[2, 2, 2, 3, 3, 5]);
        if next.abs() <= size {
            number = next;
        }
    }
    number
}

/// Any numbers on the diagonal, or such that have common divisors.
fn diagonal(random: &mut Random, size: i64) -> MatI {
    let number = if random.coin() {
        smooth_number
    } else {
        Random::within
    };
    diag([(); 3].map(|()| number(random, size)))
}

/// Numbers with common divisors on the diagonal, half of them folded: often the Rust's
/// diagonal is not the Smith form.
pub fn common(random: &mut Random) -> MatI {
    let size = random.pick(&SIZES);
    let a = diag([(); 3].map(|()| smooth_number(random, size)));
    if random.coin() {
        folded(random, a, size)
    } else {
        a
    }
}

/// The matrix with one entry changed a little: its sign, a factor, or by 1.
pub fn beside(random: &mut Random, mut a: MatI) -> MatI {
    let entry = &mut a[random.below(3)][random.below(3)];
    let factor = random.pick(&[2, 3, 5, 7, 11, 13, 17]);
    let changed = match random.below(4) {
        0 => -*entry,
        1 => *entry * factor,
        2 => *entry / factor,
        _ => *entry + random.pick(&[-1, 1]),
    };
    if changed.abs() <= MATRIX_ENTRY {
        *entry = changed;
    }
    a
}

pub fn diag([x, y, z]: Vec3I) -> MatI {
    [[x, 0, 0], [0, y, 0], [0, 0, z]]
}

/// The inverse times the determinant.
pub fn adjugate(a: &MatI) -> MatI {
    let minor = |[i, j]: [usize; 2], [k, l]: [usize; 2]| a[i][k] * a[j][l] - a[i][l] * a[j][k];
    let others = [[1, 2], [2, 0], [0, 1]];
    others.map(|columns| others.map(|rows| minor(rows, columns)))
}

/// A product of elementary matrices, with entries of size at most `size`.
pub fn unimodular(random: &mut Random, size: i64) -> MatI {
    folded(random, IDENTITY, size)
}

/// The matrix with elementary ones multiplied to both sides, which leaves its
/// Smith form, as far as entries stay of size at most `size`.
pub fn folded(random: &mut Random, mut a: MatI, size: i64) -> MatI {
    for _ in 0..random.below(STEPS + 1) {
        let step = elementary(random).matrix;
        let next = if random.coin() {
            matmul_i(&step, &a)
        } else {
            matmul_i(&a, &step)
        };
        if is_within(&next, size) {
            a = next;
        }
    }
    a
}

/// The matrix with elementary ones multiplied to its left alone, as far as entries stay
/// within the limit: it has the same points.
pub fn left_multiple(random: &mut Random, mut a: MatI) -> MatI {
    for _ in 0..random.below(STEPS + 1) {
        let next = matmul_i(&elementary(random).matrix, &a);
        if is_within(&next, MATRIX_ENTRY) {
            a = next;
        }
    }
    a
}

/// Likewise to its right.
pub fn right_multiple(random: &mut Random, a: MatI) -> MatI {
    transpose_i(&left_multiple(random, transpose_i(&a)))
}

/// An elementary matrix of determinant 1 or -1, and its inverse.
pub struct Elementary {
    pub matrix: MatI,
    pub inverse: MatI,
}

/// An exchange of two rows, a change of a row's sign, or a shear.
pub fn elementary(random: &mut Random) -> Elementary {
    let i = random.below(3);
    let j = (i + 1 + random.below(2)) % 3;
    let [mut matrix, mut inverse] = [IDENTITY; 2];
    match random.below(6) {
        0 => {
            matrix.swap(i, j);
            inverse.swap(i, j);
        }
        1 => {
            matrix[i][i] = -1;
            inverse[i][i] = -1;
        }
        _ => {
            let largest = 1 << random.below(8);
            let factor = random.within(largest);
            matrix[i][j] = factor;
            inverse[i][j] = -factor;
        }
    }
    Elementary { matrix, inverse }
}

#[cfg(test)]
mod tests {
    use phonors::common::det_i;

    use super::*;

    #[test]
    fn matrices_are_within_the_limits() {
        let mut random = Random::new(1);
        let matrices: Vec<MatI> = (0..10_000).map(|_| matrix(&mut random)).collect();
        assert!(matrices.iter().all(|a| is_within(a, MATRIX_ENTRY)));
        for size in SIZES {
            assert!(matrices
                .iter()
                .any(|a| is_within(a, size) && !is_within(a, size / 2)));
        }
        assert!(matrices.iter().any(|a| det_i(a) == 0));
        assert!(matrices.contains(&[[0; 3]; 3]));
        let large = |a: &&MatI| !is_within(a, 10_000);
        assert!(matrices.iter().filter(large).any(|a| det_i(a).abs() == 1));
    }

    #[test]
    fn singular_matrices() {
        let mut random = Random::new(1);
        for size in SIZES {
            for _ in 0..1000 {
                let a = singular(&mut random, size);
                assert!(det_i(&a) == 0 && is_within(&a, size));
                assert!(is_within(&nearly_singular(&mut random, size), size));
            }
        }
    }

    #[test]
    fn every_kind_keeps_to_its_size() {
        let mut random = Random::new(1);
        for size in SIZES {
            for _ in 0..1000 {
                assert!(is_within(&of_size(&mut random, size), size));
            }
        }
    }

    #[test]
    fn folding_keeps_the_size_of_the_determinant() {
        let mut random = Random::new(1);
        let mut moved = 0;
        for _ in 0..1000 {
            let a = matrix(&mut random);
            let b = folded(&mut random, a, MATRIX_ENTRY);
            assert!(det_i(&a).abs() == det_i(&b).abs() && is_within(&b, MATRIX_ENTRY));
            moved += usize::from(a != b);
        }
        assert!(moved > 700);
    }

    #[test]
    fn unimodular_matrices() {
        let mut random = Random::new(1);
        for size in [1, 100, 1_000] {
            for _ in 0..1000 {
                let u = unimodular(&mut random, size);
                assert!(det_i(&u).abs() == 1 && is_within(&u, size));
            }
        }
    }

    #[test]
    fn inverses_of_elementary_matrices() {
        let mut random = Random::new(1);
        for _ in 0..1000 {
            let Elementary { matrix, inverse } = elementary(&mut random);
            assert_eq!(matmul_i(&matrix, &inverse), IDENTITY);
        }
    }

    #[test]
    fn adjugates() {
        let mut random = Random::new(1);
        for _ in 0..1000 {
            let a = of_size(&mut random, 1_000);
            let scaled = diag([det_i(&a); 3]);
            assert_eq!(matmul_i(&a, &adjugate(&a)), scaled);
            assert_eq!(matmul_i(&adjugate(&a), &a), scaled);
        }
    }

    #[test]
    fn damage_leaves_the_limits() {
        let mut random = Random::new(1);
        for _ in 0..100 {
            let a = matrix(&mut random);
            assert!(!is_within(
                &damaged(&mut random, a, MATRIX_ENTRY),
                MATRIX_ENTRY
            ));
        }
    }
}
