//! Matrices for the Hermite form, whose walk to it is known, and what it is to have the
//! same points.

use phonors::common::MatI;

use crate::inputs::matrices;
use crate::random::Random;

/// Zero pivots: where the walk starts, after the first step, and in both columns.
const ZERO_PIVOTS: [MatI; 6] = [
    [[0, -7, 4], [3, 8, -1], [-2, 5, 9]],
    [[0, 2, 1], [0, 3, -1], [4, 1, 6]],
    [[0, 0, 5], [0, -3, 1], [2, 1, 1]],
    [[0, 0, -1], [-1, 0, 0], [0, -1, 0]],
    [[2, 3, 1], [4, 6, 7], [2, 5, 1]],
    [
        [0, 2, 1],
        [902816, 878745, 233918],
        [954549, -468196, -451344],
    ],
];

/// Negative pivots and negative entries above, some of them multiples of the pivot.
const NEGATIVE: [MatI; 5] = [
    [[-1, -1, -5], [0, -2, -1], [0, 0, -3]],
    [[1, -4, -6], [0, 2, -9], [0, 0, 3]],
    [[-3, 7, 7], [0, 5, -7], [0, 0, -7]],
    [[4, -2, 1], [-6, -3, 5], [-9, 8, -7]],
    [[-2, 0, 0], [0, 2, 0], [2, 0, -3]],
];

/// Numbers next to 2^63 on the way, in the products of the steps: rows 1 and 2 combined,
/// in the pivot's own column and in the other one; the entries above. One of the last has
/// -2^63 itself, where the quotient times the row, not negated, would be 2^63.
pub const INSIDE: [MatI; 7] = [
    [[6121, 0, 0], [-4572, -9976, 7500], [-7135, 5735, -1091]],
    [
        [-1574, 4950, 11417],
        [-22018, -3486, 23058],
        [-13476, -7525, 20236],
    ],
    [[0, -2, -1], [62476, 43099, -16396], [-66781, 26490, -20333]],
    [[0, 3, -3], [-9592, 50433, -695], [-93325, 23435, -2688]],
    [
        [0, 15415, -25779],
        [-22156, -7935, 3174],
        [10976, -18003, -17412],
    ],
    [
        [-5, 32, 2],
        [-581155, 503540, -497673],
        [470987, -850469, -725086],
    ],
    [
        [0, 2, 1],
        [992227, -700078, -720660],
        [908255, 739141, 30332],
    ],
];

/// Refused by 4, with the step, counted from 0: rows 0 and 1, 0 and 2, 1 and 2 combined,
/// three signs, and the entries above at (0, 1), (0, 2), (1, 2). No matrix is known that
/// another step refuses.
pub const OUTSIDE: [(MatI, usize); 9] = [
    // The pivot's own column: in its row, and in the row below, there alone.
    (
        [
            [15852, -24398, 9364],
            [-16235, -422, -2350],
            [-14677, 6761, -3329],
        ],
        2,
    ),
    (
        [
            [-6375, -5636, -5996],
            [-5413, 6661, 706],
            [6748, -160, -3217],
        ],
        2,
    ),
    (
        [
            [303, -10046, 21840],
            [-11426, 28374, 10529],
            [7995, 3243, 23986],
        ],
        2,
    ),
    // The other column, likewise.
    (
        [
            [-17843, -8679, -9064],
            [-16843, -9256, 9395],
            [-26258, 1795, -14417],
        ],
        2,
    ),
    (
        [
            [-1574, 4953, 11417],
            [-22018, -3486, 23128],
            [-13476, -7525, 20236],
        ],
        2,
    ),
    // The entries above.
    (
        [[0, 3, -3], [-9592, 50430, -695], [-93325, 23402, -2688]],
        6,
    ),
    (
        [[0, -2, -1], [62476, 43099, -16399], [-66781, 26490, -20332]],
        6,
    ),
    (
        [
            [2, 0, 49282],
            [75672, -34999, -83028],
            [98465, 67844, -63827],
        ],
        7,
    ),
    (
        [
            [-5, 32, 2],
            [-581155, 503540, -497673],
            [470987, -850469, -725087],
        ],
        7,
    ),
];

/// The known matrices, and beside those next to 2^63 some that differ by 1 in an entry.
pub fn at_limits() -> Vec<MatI> {
    let mut matrices: Vec<MatI> = ZERO_PIVOTS.into_iter().chain(NEGATIVE).collect();
    for a in INSIDE.into_iter().chain(OUTSIDE.map(|(a, _)| a)) {
        matrices.push(a);
        for [i, j] in [[1, 2], [2, 1]] {
            for step in [-1, 1] {
                let mut beside = a;
                beside[i][j] += step;
                matrices.push(beside);
            }
        }
    }
    matrices
}

/// A matrix within the limits: of any kind; with a first row that has small numbers, so
/// that the entries above are large; or with zeros where the pivots stand.
pub fn matrix(random: &mut Random) -> MatI {
    let mut a = matrices::matrix(random);
    match random.below(8) {
        0 => a[0] = [0, random.within(3), random.within(3)],
        1 => a[0][0] = 0,
        2 => {
            // Twice the first row but for its end: a zero pivot after the first step.
            a[0] = a[0].map(|entry| entry / 2);
            a[1] = [2 * a[0][0], 2 * a[0][1], a[1][2]];
        }
        _ => {}
    }
    a
}

/// Whether the rational vectors that one matrix makes whole are those that the other
/// does, for determinants that are not 0: the columns of A's inverse must be points of B,
/// and the other way round.
pub fn has_same_points(a: &MatI, b: &MatI) -> bool {
    makes_whole(a, b) && makes_whole(b, a)
}

/// Whether A makes the columns of B's inverse whole, which is the adjugate over the
/// determinant.
fn makes_whole(a: &MatI, b: &MatI) -> bool {
    let [a, b] = [a, b].map(|m| m.map(|row| row.map(i128::from)));
    let minor = |[i, j]: [usize; 2], [k, l]: [usize; 2]| b[i][k] * b[j][l] - b[i][l] * b[j][k];
    let others = [[1, 2], [2, 0], [0, 1]];
    let adjugate = others.map(|columns| others.map(|rows| minor(rows, columns)));
    let entry = |m: &[i128; 3], k: usize| (0..3).map(|j| m[j] * adjugate[j][k]).sum::<i128>();
    let det = entry(&b[0], 0);
    a.iter().all(|row| (0..3).all(|k| entry(row, k) % det == 0))
}

#[cfg(test)]
mod tests {
    use phonors::common::{det_i, matmul_i};

    use super::*;
    use crate::inputs::matrices::{diag, is_within, unimodular};
    use crate::limits::MATRIX_ENTRY;

    #[test]
    fn matrices_are_within_the_limits() {
        let mut random = Random::new(1);
        let known = at_limits().into_iter();
        let all = known.chain((0..10_000).map(|_| matrix(&mut random)));
        for a in all {
            assert!(is_within(&a, MATRIX_ENTRY), "{a:?}");
        }
    }

    /// A factor of determinant 1 or -1 on the left leaves the points, one of 2 does not;
    /// nor does, as a rule, one on the right.
    #[test]
    fn same_points() {
        let mut random = Random::new(1);
        let mut moved = 0;
        for _ in 0..2_000 {
            let a = matrices::of_size(&mut random, 1_000);
            if det_i(&a) == 0 {
                continue;
            }
            let u = unimodular(&mut random, 1_000);
            assert!(has_same_points(&a, &matmul_i(&u, &a)));
            assert!(!has_same_points(&a, &matmul_i(&diag([1, 2, 1]), &a)));
            moved += usize::from(!has_same_points(&a, &matmul_i(&a, &u)));
        }
        assert!(moved > 500, "{moved}");
        assert!(!has_same_points(&diag([1, 1, 2]), &diag([2, 1, 1])));
        let sheared = [[2, 0, 0], [0, 2, 0], [2, 0, 3]];
        assert!(has_same_points(&diag([2, 2, 3]), &sheared));
    }
}
