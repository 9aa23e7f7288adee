//! Matrices whose walk in the diagonalising is known: many rounds, and numbers
//! next to 2^63.

use phonors::common::MatI;

/// Matrices of the smallest entries known that are refused with 4.
pub const SMALLEST: [MatI; 2] = [
    [[-22, 16, 22], [-28, -22, 27], [27, -3, 27]],
    [[56, 36, 47], [68, 66, -36], [14, -42, -37]],
];

/// Matrices that take the most rounds known, and their rounds.
pub const ROUNDS: [(MatI, i64); 4] = [
    ([[884736, 92160, 0], [0, 0, -12], [0, -786432, -864]], 5),
    ([[0, 36, -304], [0, -12, 12], [9072, 2160, 0]], 5),
    ([[-174960, 13500, 0], [0, 0, -3], [0, -900, 40]], 6),
    ([[518400, -518400, 0], [0, 0, -54], [0, 116640, -1125]], 6),
];

/// Diagonalised, with a number above 2^62 on the way. It stands in a product of a
/// step, in a sum of one, or in the determinant of P at the end.
pub const INSIDE: [MatI; 12] = [
    // The first column and row.
    [
        [-152940, -344130, -338557],
        [-152940, -344131, -338557],
        [15692, 364432, -50352],
    ],
    [
        [41558, 172490, -297915],
        [41558, 172489, -297915],
        [165754, 452620, 63971],
    ],
    // The second.
    [
        [8307, 4897, -7986],
        [3896, 8235, -14],
        [-7935, -7750, -1577],
    ],
    [[-71334, 0, 0], [0, 38600, 0], [0, 0, 70166]],
    [[18967, 0, 3223], [93598, 23098, 33546], [0, -6511, -44730]],
    // The clearing of the last entry.
    [[0, 0, -9684], [0, -6350, -4052], [1102, 9358, -7907]],
    [[-98304, -300, 0], [0, 0, 1], [0, -72000, -67500]],
    // The determinant.
    [[68, 76, -79], [-22, -86, 58], [8, 67, 55]],
    [[-320, 40, 608], [-114, -923, 85], [-890, -75, 497]],
    [
        [0, 1, 0],
        [172872, -448178, 67071],
        [367801, 278237, 126791],
    ],
    [[288, -250, 65], [410, 898, -254], [614, -64, 735]],
    [[0, 72266, 0], [61098, -4383, 0], [93166, 0, 48052]],
];

/// Refused with 4, by a number below 2^64 in the same places and in the sum of
/// two columns.
pub const OUTSIDE: [MatI; 13] = [
    // The first column and row, and their clearing.
    [
        [-9232, 2855, -8620],
        [3220, -3431, 1347],
        [9434, 5955, 3088],
    ],
    [
        [321317, -165624, 98158],
        [271609, 257336, -441881],
        [271609, 257336, -441882],
    ],
    [
        [7644, 8510, -2763],
        [2488, -2810, -6228],
        [6596, -4123, -967],
    ],
    // The second.
    [[967, -104, -831], [40, -44, -541], [38, 334, 243]],
    [[-21108, 0, 0], [0, 47985, 0], [0, 0, -47241]],
    [[-3978, -2486, 910], [-3978, -2486, 911], [2298, 733, 803]],
    [
        [0, -88412, 67887],
        [-97399, -60424, -29574],
        [43500, 43846, 0],
    ],
    // The clearing of the last entry.
    [[0, 80461, -90674], [89093, 31826, 0], [0, 12237, -88805]],
    // The sum of two columns.
    [
        [-5174, -9606, -6623],
        [5044, -434, -8639],
        [7871, 5239, 4096],
    ],
    // The determinant.
    [[-99, 19, 91], [69, 41, 22], [-33, -91, -10]],
    [[607500, 0, -2560], [-48, 6, -6], [0, 0, 320]],
    [[994, 924, -600], [-972, 0, -64], [-242, 0, -441]],
    [
        [-5112, 8769, 9323],
        [-1758, -4892, -2660],
        [-3086, 5078, 7914],
    ],
];

/// Diagonalised, as the diagonal matrix of their numbers is, while the product of the
/// two Q leaves 64 bits; that of the two P does not.
pub const JOIN_Q: [MatI; 3] = [
    [[0, -11616, 3400], [0, -9555, 0], [14280, 10374, 0]],
    [[0, 9555, 0], [71400, -41496, 0], [0, -151008, -88400]],
    [[0, 0, 7917], [0, 743886, -13464], [102102, 0, 334180]],
];

/// The same of both products. No matrix is known where that of the two P leaves them
/// alone.
pub const JOIN_BOTH: [MatI; 3] = [
    [[0, 0, 134589], [0, 879138, -991848], [-102102, 0, 334180]],
    [[0, -294840, -521703], [714714, -852720, 0], [0, -34034, 0]],
    [[939250, 0, 644800], [0, -157794, 891072], [0, 0, 167475]],
];

/// Diagonalised to numbers of which the first does not divide the second.
pub const UNDIVIDED: [MatI; 6] = [
    [[6, 0, 0], [0, 10, 0], [0, 0, 15]],
    [[4, 0, 0], [0, 0, 4], [0, -6, 0]],
    [[-12, 0, 0], [0, 30, 0], [0, 0, -20]],
    [[-6, -3, 4], [3, 0, 2], [-3, -6, 6]],
    [[831600, 0, 0], [0, 831600, 0], [0, 0, 997920]],
    [[999999, 0, 0], [0, 999999, 0], [0, 0, 1000000]],
];

/// The known matrices, and beside those next to 2^63 some that differ by 1 in an
/// entry.
pub fn at_limits() -> Vec<MatI> {
    let mut matrices = SMALLEST.to_vec();
    for place in 0..9 {
        matrices.extend([-1, 1].map(|step| moved(SMALLEST[1], place, step)));
    }
    matrices.extend(ROUNDS.map(|(a, _)| a));
    for a in INSIDE.into_iter().chain(OUTSIDE) {
        matrices.extend([a, moved(a, 0, 1), moved(a, 1, -1)]);
    }
    matrices
}

fn moved(mut a: MatI, place: usize, step: i64) -> MatI {
    a[place / 3][place % 3] += step;
    a
}

#[cfg(test)]
mod tests {
    use phonors::common::matmul_i;
    use phonors::measured::largest;
    use phonors::snf3x3::snf3x3;
    use phonors::{snf3x3_counted, snf3x3_measured};

    use super::*;
    use crate::inputs::matrices::{diag, is_within};
    use crate::limits::MATRIX_ENTRY;
    use crate::panics::counted;

    /// Whether the walk ends without an overflow, and the largest size on it.
    fn walk(a: MatI) -> (bool, u128) {
        let (answer, size) = largest(|| counted(|| snf3x3_measured::snf3x3(a)));
        (answer.is_ok_and(|answer| answer.is_ok()), size)
    }

    #[test]
    fn within_a_factor_of_two() {
        for a in INSIDE {
            let (ends, size) = walk(a);
            assert!(ends && size > 1 << 62, "{a:?}");
        }
        for a in OUTSIDE {
            let (ends, size) = walk(a);
            assert!(!ends && size < 1 << 64, "{a:?}");
        }
    }

    #[test]
    fn overflows_of_small_entries() {
        assert!(SMALLEST.iter().all(|&a| !walk(a).0));
        assert!(is_within(&SMALLEST[0], 28));
    }

    #[test]
    fn joins() {
        for (joins, p_leaves) in [(JOIN_Q, false), (JOIN_BOTH, true)] {
            for a in joins {
                let first = snf3x3(a).expect("a diagonal");
                let second = snf3x3(diag(first.d_diag)).expect("a diagonal");
                let p = counted(|| matmul_i(&second.p, &first.p));
                let q = counted(|| matmul_i(&first.q, &second.q));
                assert_eq!((p.is_err(), q.is_err()), (p_leaves, true), "{a:?}");
            }
        }
    }

    #[test]
    fn diagonals_that_do_not_divide() {
        for a in UNDIVIDED {
            let [x, y, _] = snf3x3(a).expect("a diagonal").d_diag;
            assert_ne!(y % x, 0, "{a:?}");
        }
    }

    #[test]
    fn rounds() {
        for (a, expected) in ROUNDS {
            let mut rounds = 0;
            assert!(snf3x3_counted::snf3x3(a, &mut rounds).is_ok());
            assert_eq!(rounds, expected);
        }
    }

    /// Answers stand beside refusals that one entry moved by 1 makes.
    #[test]
    fn both_sides() {
        let matrices = at_limits();
        assert!(matrices.iter().all(|a| is_within(a, MATRIX_ENTRY)));
        let beside = INSIDE
            .iter()
            .flat_map(|&a| [moved(a, 0, 1), moved(a, 1, -1)]);
        assert!(beside.filter(|&a| !walk(a).0).count() > INSIDE.len());
        let beside = OUTSIDE
            .iter()
            .flat_map(|&a| [moved(a, 0, 1), moved(a, 1, -1)]);
        assert!(beside.filter(|&a| walk(a).0).count() > OUTSIDE.len() / 2);
    }
}
