//! Whole numbers of 64 bits, and pairs of them whose sum, difference, product
//! or quotient lies at the limits.

use crate::function::{Input, Line};
use crate::random::Random;

const MIN: i64 = i64::MIN;
const MAX: i64 = i64::MAX;

/// The largest number whose square fits.
const ROOT: i64 = 3_037_000_499;

/// Numbers with an edge of their own.
const EDGES: [i64; 6] = [MIN, MIN + 1, -1, 0, 1, MAX];

/// Further numbers to negate: next to an edge, at powers of two and at the root.
const NEAR_EDGES: [i64; 14] = [
    MIN + 2,
    -(1 << 62),
    -ROOT - 1,
    -ROOT,
    -(1 << 32),
    -(1 << 31),
    -2,
    2,
    1 << 31,
    1 << 32,
    ROOT,
    ROOT + 1,
    1 << 62,
    MAX - 1,
];

/// Pairs on both sides of an overflow, and the signs of a division.
const PAIRS: [[i64; 2]; 18] = [
    // Sums and differences at the limits and one step past them.
    [1 << 62, (1 << 62) - 1],
    [1 << 62, 1 << 62],
    [-(1 << 62), -(1 << 62)],
    [-(1 << 62), -(1 << 62) - 1],
    [-2, MAX],
    // Products likewise: MAX is 7 times 1,317,624,576,693,539,401.
    [MAX / 7, 7],
    [MAX / 7 + 1, 7],
    [1 << 31, -(1 << 32)],
    [1 << 31, 1 << 32],
    [ROOT, ROOT],
    [ROOT + 1, ROOT + 1],
    [ROOT + 1, -ROOT - 1],
    // Quotients of every sign, with a remainder and without.
    [7, 3],
    [7, -3],
    [-7, 3],
    [-7, -3],
    [-6, 3],
    [MIN, 2],
];

/// A number of any kind: spread over all 64 bits, of any size, small, or next to
/// an edge, a power of two or the root.
pub fn number(random: &mut Random) -> i64 {
    match random.below(6) {
        0 => random.bits() as i64,
        1 => random.bits() as i64 >> random.below(64),
        2 => random.within(10),
        3 => random.pick(&EDGES).wrapping_add(random.within(2)),
        4 => sign(random)
            .wrapping_mul(1 << random.below(64))
            .wrapping_add(random.within(1)),
        _ => sign(random) * ROOT + random.within(2),
    }
}

pub fn sign(random: &mut Random) -> i64 {
    random.pick(&[1, -1])
}

/// A number of size over a limit.
pub fn outside(random: &mut Random, limit: i64) -> i64 {
    random.pick(&[limit + 1, -limit - 1, MAX, MIN])
}

/// A number that, joined to `a` by one of the functions, comes within a step or
/// two of a limit, or of a quotient without remainder.
fn partner(random: &mut Random, a: i64) -> i64 {
    let limit = random.pick(&[MIN, MAX]);
    let exact = match random.below(4) {
        0 => limit.wrapping_sub(a),
        1 => a.wrapping_sub(limit),
        2 => limit.checked_div(a).unwrap_or(limit),
        _ => a.checked_div(random.between(1, 1000)).unwrap_or(a),
    };
    exact.wrapping_add(random.within(2))
}

impl Input for [i64; 2] {
    fn at_limits() -> Vec<[i64; 2]> {
        let edges = EDGES.iter().flat_map(|&a| EDGES.map(|b| [a, b]));
        edges.chain(PAIRS).collect()
    }

    fn random(random: &mut Random) -> [i64; 2] {
        let a = number(random);
        let b = if random.coin() {
            number(random)
        } else {
            partner(random, a)
        };
        if random.coin() {
            [a, b]
        } else {
            [b, a]
        }
    }

    fn typical(random: &mut Random) -> [i64; 2] {
        [
            random.within(1_000_000_000),
            sign(random) * random.between(1, 1_000_000_000),
        ]
    }

    fn write(&self, line: &mut Line) {
        line.numbers(self);
    }
}

impl Input for [i64; 1] {
    fn at_limits() -> Vec<[i64; 1]> {
        EDGES.iter().chain(&NEAR_EDGES).map(|&a| [a]).collect()
    }

    fn random(random: &mut Random) -> [i64; 1] {
        [number(random)]
    }

    fn typical(random: &mut Random) -> [i64; 1] {
        [random.within(1_000_000_000)]
    }

    fn write(&self, line: &mut Line) {
        line.numbers(self);
    }
}

#[cfg(test)]
mod tests {
    use super::*;

    #[test]
    fn the_root_is_the_largest() {
        assert!(ROOT.checked_mul(ROOT).is_some());
        assert!((ROOT + 1).checked_mul(ROOT + 1).is_none());
    }

    /// Results at each limit and one step past it.
    #[test]
    fn random_pairs_meet_both_sides() {
        let mut random = Random::new(1);
        let pairs: Vec<[i64; 2]> = (0..100_000).map(|_| Input::random(&mut random)).collect();
        let exact: [fn(i128, i128) -> i128; 3] = [|a, b| a + b, |a, b| a - b, |a, b| a * b];
        let [least, largest] = [MIN, MAX].map(i128::from);
        for function in exact {
            for result in [least - 1, least, largest, largest + 1] {
                let meets = |&[a, b]: &[i64; 2]| function(a.into(), b.into()) == result;
                assert!(pairs.iter().any(meets));
            }
        }
    }

    #[test]
    fn random_pairs_meet_the_divisors() {
        let mut random = Random::new(1);
        let pairs: Vec<[i64; 2]> = (0..10_000).map(|_| Input::random(&mut random)).collect();
        for pair in [[MIN, -1], [MIN, 0], [0, 0], [MAX, -1]] {
            assert!(pairs.contains(&pair));
        }
        let divides = |&&[a, b]: &&[i64; 2]| b.unsigned_abs() > 1 && a.wrapping_rem(b) == 0;
        assert!(pairs.iter().filter(divides).count() > 100);
    }
}
