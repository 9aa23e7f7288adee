//! Grids: diagonals and shifts.

use phonors::common::Vec3I;

use crate::limits::{DIAGONAL, POINTS};
use crate::random::Random;

/// The shapes of the largest grids.
const LARGEST: [Vec3I; 4] = [[256, 256, 1], [256, 128, 2], [256, 16, 16], [64, 32, 32]];

/// Diagonals at the limits and past them.
pub const AT_LIMITS: [Vec3I; 14] = [
    [1, 1, 1],
    [2, 3, 5],
    [256, 1, 1],
    [13, 14, 15],
    [32, 16, 16],
    [256, 256, 1],
    [1, 256, 256],
    [40, 40, 40],
    [41, 40, 40],
    [256, 256, 2],
    [257, 1, 1],
    [1, 0, 1],
    [1, 1, -1],
    [i64::MIN, i64::MAX, 4],
];

/// A diagonal within the limits. Small ones are cheap and meet the most cases,
/// so they are the rule.
pub fn diagonal(random: &mut Random) -> Vec3I {
    let mut d = match random.below(100) {
        0 => random.pick(&LARGEST),
        1..=2 => numbers_up_to(random, DIAGONAL),
        3..=19 => numbers_up_to(random, 16),
        _ => numbers_up_to(random, 4),
    };
    random.shuffle(&mut d);
    d
}

/// A diagonal of few points, for calls whose cost is high at each.
pub fn few_points(random: &mut Random) -> Vec3I {
    let largest = match random.below(50) {
        0 => 16,
        1..=9 => 6,
        _ => 4,
    };
    numbers_up_to(random, largest)
}

/// A diagonal of many points, up to the most that are allowed.
pub fn many_points(random: &mut Random) -> Vec3I {
    let mut d = if random.coin() {
        random.pick(&LARGEST)
    } else {
        numbers_up_to(random, DIAGONAL)
    };
    random.shuffle(&mut d);
    d
}

fn numbers_up_to(random: &mut Random, largest: i64) -> Vec3I {
    let mut room = POINTS;
    [(); 3].map(|()| {
        let number = random.between(1, largest.min(room));
        room /= number;
        number
    })
}

/// A diagonal outside the limits, by its product or by one number.
pub fn damaged_diagonal(random: &mut Random) -> Vec3I {
    if random.coin() {
        return random.pick(&[[256, 256, 2], [41, 40, 40], [256; 3]]);
    }
    let mut d = diagonal(random);
    d[random.below(3)] = random.pick(&[0, -1, DIAGONAL + 1, i64::MIN, i64::MAX]);
    d
}

/// A shift within the limits.
pub fn shift(random: &mut Random) -> Vec3I {
    [(); 3].map(|()| random.between(0, 1))
}

/// A shift outside the limits.
pub fn damaged_shift(random: &mut Random) -> Vec3I {
    let mut ps = shift(random);
    ps[random.below(3)] = random.pick(&[-1, 2, i64::MIN, i64::MAX]);
    ps
}

#[cfg(test)]
mod tests {
    use super::*;

    fn is_within(d: Vec3I) -> bool {
        let product: i128 = d.iter().map(|&number| i128::from(number)).product();
        d.iter().all(|number| (1..=DIAGONAL).contains(number)) && product <= i128::from(POINTS)
    }

    #[test]
    fn diagonals() {
        let mut random = Random::new(1);
        let diagonals: Vec<Vec3I> = (0..10_000).map(|_| diagonal(&mut random)).collect();
        assert!(diagonals.iter().all(|&d| is_within(d)));
        let points = |d: &Vec3I| d.iter().product::<i64>();
        assert_eq!(diagonals.iter().map(points).min(), Some(1));
        assert_eq!(diagonals.iter().map(points).max(), Some(POINTS));
        let small = diagonals.iter().filter(|&d| points(d) <= 64).count();
        assert!(small > diagonals.len() / 2);
        assert!((0..1000).all(|_| !is_within(damaged_diagonal(&mut random))));
        let few: Vec<Vec3I> = (0..10_000).map(|_| few_points(&mut random)).collect();
        assert!(few.iter().map(points).sum::<i64>() < 50 * 10_000);
        assert!(few.iter().any(|d| points(d) > 1_000));
        let many: Vec<Vec3I> = (0..100).map(|_| many_points(&mut random)).collect();
        assert!(few.iter().chain(&many).all(|&d| is_within(d)));
        assert!(many.iter().filter(|d| points(d) == POINTS).count() > 20);
    }

    #[test]
    fn shifts() {
        let mut random = Random::new(1);
        let shifts: Vec<Vec3I> = (0..100).map(|_| shift(&mut random)).collect();
        let number = |ps: &Vec3I| 4 * ps[2] + 2 * ps[1] + ps[0];
        assert!((0..8).all(|wanted| shifts.iter().any(|ps| number(ps) == wanted)));
        let is_shift = |ps: Vec3I| ps.iter().all(|number| [0, 1].contains(number));
        assert!(shifts.iter().all(|&ps| is_shift(ps)));
        assert!((0..100).all(|_| !is_shift(damaged_shift(&mut random))));
    }
}
