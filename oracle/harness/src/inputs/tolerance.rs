//! Inputs about the tolerance of `transform_rotations`: an entry that is over 1e-5
//! from a whole number is refused. They take a det Q beyond 1 and -1.

use phonors::common::{MatI, Vec3I, IDENTITY};

use crate::inputs::transforms::Transform;
use crate::random::Random;

/// Numbers qj and dk of product 100,000.
pub const DIVISORS: [[i64; 2]; 5] = [[400, 250], [500, 200], [625, 160], [800, 125], [1_000, 100]];

/// An entry of a rotation, qk and dj, whose product is a multiple of 100,000 plus or
/// minus 1: over the divisors it is 1e-5 from a whole number.
pub const FACTORS: [[i64; 3]; 12] = [
    [1, 1, 1],
    [41, 271, 9],
    [3, 409, 163],
    [47, 491, 13],
    [3, 883, 151],
    [31, 127, 127],
    [9, 863, 103],
    [91, 999, 11],
    [43, 473, 59],
    [61, 897, 53],
    [93, 643, 199],
    [87, 741, 197],
];

/// Of determinant 3. On the grid 1, 1, 256 five times the identity is accepted, and
/// seven times the identity is refused by rounding alone.
pub const ROUNDED: MatI = [[-23, 844, 33], [28, -164, -27], [-824, -127, 719]];

/// Rotation, diagonal and Q with an entry at the tolerance or a few of the last bits
/// from it, so that the order of the operations decides.
pub const LAST_BITS: [(MatI, Vec3I, MatI); 5] = [
    (
        [[1, 0, 0], [0, 1, 0], [1, 0, 1]],
        [125, 1, 1],
        [[1, 0, 0], [0, 1, 0], [6, 0, 800]],
    ),
    (
        [[1, 0, -1], [0, 1, 0], [0, 0, 1]],
        [1, 250, 1],
        [[400, -5, 0], [0, 0, 1], [0, 1, 0]],
    ),
    (
        [[1, 0, 0], [0, 1, 0], [1, 0, 1]],
        [125, 1, 1],
        [[1, 0, 0], [1, 1, 0], [18, 18, 800]],
    ),
    (
        [[1, 0, -1], [0, 1, 0], [0, 0, 1]],
        [1, 1, 100],
        [[1_000, 17, 34], [0, 1, 2], [0, 0, 1]],
    ),
    (
        [[1, 0, 0], [0, 1, 0], [0, 1, 1]],
        [1, 250, 1],
        [[1, -3, 0], [0, 1, 0], [2, -6, -400]],
    ),
];

/// Q of determinant 5, and a rotation of multiples of 5: on equal sides it is refused
/// by rounding alone, for the last of its nine places.
pub const LAST_ROUNDED: [MatI; 2] = [
    [[760, 76, 683], [1, 879, -878], [760, 81, 678]],
    [[-100, -40, -100], [-50, -100, -100], [100, -100, 100]],
];

/// The identity but for one entry, with a diagonal Q: the transformed entry is
/// 1e-5 from a whole number, where the call turns from accepting to refusing.
pub fn at([j, k]: [usize; 2], [qj, dk]: [i64; 2], [entry, qk, dj]: [i64; 3]) -> Transform {
    let [mut rotation, mut q] = [IDENTITY; 2];
    let mut d = [1; 3];
    rotation[j][k] = entry;
    [q[j][j], q[k][k]] = [qj, qk];
    [d[j], d[k]] = [dj, dk];
    Transform {
        rotations: vec![rotation],
        d,
        q,
    }
}

/// At the tolerance or near it, on any two axes.
pub fn near(random: &mut Random) -> Transform {
    let mut axes = [0, 1, 2];
    random.shuffle(&mut axes);
    let [mut qj, mut dk] = random.pick(&DIVISORS);
    let mut factors = FACTORS[0];
    if random.coin() {
        factors = random.pick(&FACTORS);
    }
    if random.one_in(4) {
        qj -= random.between(0, 1);
        dk += random.within(1);
    }
    factors[0] *= random.pick(&[1, -1]);
    at([axes[0], axes[1]], [qj, dk], factors)
}

#[cfg(test)]
mod tests {
    use super::*;
    use crate::tests::points;

    #[test]
    fn products_at_the_tolerance() {
        for [qj, dk] in DIVISORS {
            assert_eq!(qj * dk, 100_000);
            assert!(FACTORS.iter().all(|f| points([f[2], dk, 1]).is_ok()));
        }
        for factors in FACTORS {
            let product: i64 = factors.iter().product();
            assert!([1, 99_999].contains(&(product % 100_000)));
        }
    }
}
