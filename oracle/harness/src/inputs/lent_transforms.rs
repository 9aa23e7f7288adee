//! What `transform_rotations` is lent: at the limits, random and damaged.

use phonors::common::{negate_i, MatI, Vec3I, IDENTITY, INVERSION};

use crate::function::{Input, Line};
use crate::inputs::groups::{self, CUBIC};
use crate::inputs::lent::{self, repeated};
use crate::inputs::matrices::diag;
use crate::inputs::tolerance::{self, DIVISORS, FACTORS, LAST_BITS, LAST_ROUNDED, ROUNDED};
use crate::inputs::transforms::{self, Transform};
use crate::inputs::{grids, numbers};
use crate::limits::{DIAGONAL, Q_ENTRY, ROTATIONS, TRANSFORMED_ENTRY};
use crate::random::Random;

/// Axes 0 and 1 exchanged.
pub const EXCHANGE: MatI = [[0, 1, 0], [1, 0, 0], [0, 0, 1]];

#[derive(Debug)]
pub struct TransformInput {
    pub rotations: Vec<i64>,
    pub d: Vec<i64>,
    pub q: Vec<i64>,
    /// Places of the output that is lent.
    pub places: usize,
}

impl TransformInput {
    pub fn new(rotations: &[MatI], d: Vec3I, q: MatI) -> TransformInput {
        let rotations = groups::flat(rotations);
        TransformInput {
            places: rotations.len(),
            rotations,
            d: d.to_vec(),
            q: q.as_flattened().to_vec(),
        }
    }

    pub fn of(given: &Transform) -> TransformInput {
        TransformInput::new(&given.rotations, given.d, given.q)
    }

    /// With lengths that are wrong, or numbers at a limit or past it.
    fn damaged(random: &mut Random) -> TransformInput {
        let mut input = TransformInput::of(&transforms::belonging(random));
        let TransformInput {
            rotations, d, q, ..
        } = &mut input;
        for _ in 0..random.between(1, 2) {
            match random.below(8) {
                0 => lent::damage(random, rotations),
                1 => lent::damage(random, d),
                2 => lent::damage(random, q),
                3 => *rotations = repeated(rotations, 9 * (ROTATIONS + random.below(2))),
                4 => to_limit(random, rotations, TRANSFORMED_ENTRY),
                5 => to_limit(random, d, DIAGONAL),
                6 => to_limit(random, q, Q_ENTRY),
                _ => *d = grids::damaged_diagonal(random).to_vec(),
            }
        }
        let places = rotations.len();
        let wrong = random.pick(&[0, places.saturating_sub(9), places + 1, places + 9]);
        input.places = random.pick(&[places, places, places, wrong]);
        input
    }
}

/// Puts one of the numbers at its limit, or past it.
fn to_limit(random: &mut Random, slice: &mut [i64], limit: i64) {
    if slice.is_empty() {
        return;
    }
    let chosen = random.below(slice.len());
    slice[chosen] = if random.coin() {
        random.pick(&[-limit, limit])
    } else {
        numbers::outside(random, limit)
    };
}

/// Lengths at their limits and beside them, with numbers that would be refused.
fn lengths() -> Vec<TransformInput> {
    let input = |rotations, d, q, places| TransformInput {
        rotations: vec![TRANSFORMED_ENTRY + 1; rotations],
        d: vec![0; d],
        q: vec![0; q],
        places,
    };
    let mut inputs = Vec::new();
    for rotations in [1, 8, 10] {
        inputs.push(input(rotations, 3, 9, rotations));
    }
    for [d, q] in [[0, 9], [2, 9], [4, 9], [3, 0], [3, 8], [3, 10], [9, 3]] {
        inputs.extend([0, 9].map(|places| input(places, d, q, places)));
    }
    for [rotations, places] in [[0, 1], [9, 0], [9, 8], [9, 10], [9, 18], [18, 9]] {
        inputs.push(input(rotations, 3, 9, places));
    }
    // The longest list, then longer ones, of which the length of the output is not
    // tested but that of Q is.
    let list = |numbers, q, places| TransformInput {
        rotations: repeated(&groups::flat(&CUBIC), numbers),
        d: vec![2; 3],
        q: repeated(&[1, 0, 0, -7, 1, 0, 0, 5, -1], q),
        places,
    };
    let longest = 9 * ROTATIONS;
    inputs.extend([
        list(longest, 9, longest),
        list(longest, 9, longest - 9),
        list(longest + 1, 9, longest + 1),
        list(longest + 9, 9, 9),
        list(longest + 9, 8, 9),
    ]);
    inputs
}

/// Numbers at their limits and past them, the entries in every place.
fn numbers_at_limits() -> Vec<TransformInput> {
    let [entry, size] = [TRANSFORMED_ENTRY, Q_ENTRY];
    let pair = [IDENTITY, INVERSION];
    let mut inputs = vec![
        TransformInput::new(&[[[entry; 3]; 3], [[-entry; 3]; 3]], [2; 3], IDENTITY),
        TransformInput::new(&[[[i64::MAX; 3]; 3]], [2; 3], IDENTITY),
        TransformInput::new(&pair, [2; 3], [[i64::MIN; 3]; 3]),
    ];
    for place in 0..9 {
        let with = |number| {
            let mut a = IDENTITY;
            a[place / 3][place % 3] = if place % 2 == 0 { number } else { -number };
            a
        };
        let last = [EXCHANGE, with(entry + 1)];
        inputs.push(TransformInput::new(&last, [2; 3], IDENTITY));
        inputs.push(TransformInput::new(&pair, [2; 3], with(size + 1)));
        inputs.push(TransformInput::new(&[EXCHANGE], [2; 3], with(size)));
    }
    let beside = [
        [151, 217, 2],
        [113, 145, 4],
        [1, 257, 1],
        [1, 1, 257],
        [0, 1, 1],
        [1, 1, 0],
    ];
    for d in grids::AT_LIMITS.into_iter().chain(beside) {
        inputs.push(TransformInput::new(&pair, d, IDENTITY));
    }
    inputs
}

/// A det Q of 0, the list empty too, and what is refused before it.
fn singular() -> Vec<TransformInput> {
    let q = [[1, 2, 3], [4, 5, 6], [5, 7, 9]];
    let over = [[TRANSFORMED_ENTRY + 1; 3]; 3];
    vec![
        TransformInput::new(&[], [1; 3], IDENTITY),
        TransformInput::new(&[], [1; 3], q),
        TransformInput::new(&[], [0; 3], q),
        TransformInput::new(&[], [1; 3], diag([0, 0, Q_ENTRY + 1])),
        TransformInput::new(&[EXCHANGE], [1, 2, 1], [[0; 3]; 3]),
        TransformInput::new(&[EXCHANGE], [2, 2, 1], q),
        TransformInput::new(&[EXCHANGE, over], [2, 2, 1], q),
    ]
}

/// A det Q of 1 or -1.
fn unimodular() -> Vec<TransformInput> {
    let entry = TRANSFORMED_ENTRY;
    let large = [[0, entry, entry], [0, -entry, entry], [0, entry, entry]];
    // Its inverse has an entry of a million.
    let steep = [[1, Q_ENTRY, 0], [0, 1, -Q_ENTRY], [0, 0, 1]];
    let mut inputs = vec![
        TransformInput::new(&[EXCHANGE], [1, 2, 1], IDENTITY),
        TransformInput::new(&[EXCHANGE], [2, 2, 1], IDENTITY),
        // Of two, the first is broken, then the last.
        TransformInput::new(&[EXCHANGE, IDENTITY], [1, 2, 1], INVERSION),
        TransformInput::new(&[IDENTITY, EXCHANGE], [1, 2, 1], INVERSION),
        TransformInput::new(&CUBIC, [2; 3], [[1, 0, 0], [5, 1, 0], [0, -3, -1]]),
        TransformInput::new(&[[[entry; 3]; 3]], [3; 3], steep),
        TransformInput::new(&[large, negate_i(&large)], [256, 1, 1], steep),
        TransformInput::new(&[large], [1, 256, 1], steep),
    ];
    // The entry is 1/256, 255/256 or 1.
    for j in 0..3 {
        for k in [(j + 1) % 3, (j + 2) % 3] {
            for side in [1, DIAGONAL - 1, DIAGONAL] {
                let mut rotation = IDENTITY;
                rotation[j][k] = 1;
                let mut d = [1; 3];
                [d[j], d[k]] = [side, DIAGONAL];
                inputs.push(TransformInput::new(&[rotation], d, IDENTITY));
            }
        }
    }
    inputs
}

/// A det Q beyond 1 and -1.
fn beyond() -> Vec<TransformInput> {
    let largest = [[1, -1, 1], [1, 1, -1], [-1, 1, 1]].map(|row| row.map(|sign| sign * Q_ENTRY));
    let mut inputs = Vec::new();
    for (d, q) in [
        ([1, 1, 1], diag([2, 1, 1])),
        ([2, 1, 1], diag([2, 1, 1])),
        ([1, 1, 2], diag([3, 3, -3])),
        ([1, 2, 1], diag([3, 3, 3])),
        ([4, 4, 4], largest),
        ([4, 4, 4], negate_i(&largest)),
        ([1, 1, 256], largest),
    ] {
        inputs.push(TransformInput::new(&[IDENTITY, EXCHANGE], d, q));
    }
    for factor in [1, 3, 4, 5, 7, 10, -11, 100] {
        let multiple = diag([factor; 3]);
        inputs.push(TransformInput::new(&[multiple], [1, 1, 256], ROUNDED));
    }
    // In turn each place of the diagonal is the one that refuses.
    for axis in 0..3 {
        let [mut q, rotation] = LAST_ROUNDED;
        q.iter_mut().for_each(|row| row.rotate_left(axis));
        inputs.push(TransformInput::new(&[rotation], [1; 3], q));
    }
    for (rotation, d, q) in LAST_BITS {
        inputs.push(TransformInput::new(&[rotation], d, q));
    }
    let mut at = |axes, divisors, factors| {
        inputs.push(TransformInput::of(&tolerance::at(axes, divisors, factors)));
    };
    for [qj, dk] in DIVISORS {
        for factors in FACTORS {
            at([0, 1], [qj, dk], factors);
        }
        at([2, 0], [qj, dk], [-1, 1, 1]);
        at([1, 2], [qj, dk - 1], [1; 3]);
        at([2, 1], [qj, dk + 1], [1; 3]);
    }
    inputs
}

impl Input for TransformInput {
    fn at_limits() -> Vec<TransformInput> {
        let kinds = [
            unimodular(),
            beyond(),
            singular(),
            numbers_at_limits(),
            lengths(),
        ];
        kinds.into_iter().flatten().collect()
    }

    /// Half of them belong together.
    fn random(random: &mut Random) -> TransformInput {
        let given = match random.below(8) {
            0..=3 => transforms::belonging(random),
            4..=5 => transforms::beyond(random),
            6 => transforms::apart(random),
            _ => return TransformInput::damaged(random),
        };
        TransformInput::of(&given)
    }

    /// All 48 rotations.
    fn typical(random: &mut Random) -> TransformInput {
        TransformInput::of(&transforms::cubic(random))
    }

    fn write(&self, line: &mut Line) {
        line.slice(&self.rotations);
        line.slice(&self.d);
        line.slice(&self.q);
    }
}
