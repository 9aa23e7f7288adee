//! What `class_weights` is lent: at the limits, random and damaged.

use phonors::common::{MatI, Vec3I, IDENTITY, INVERSION};

use crate::function::{Input, Line};
use crate::inputs::groups::{self, closure, CUBIC, HEXAGONAL, THREEFOLD};
use crate::inputs::lent_transforms::EXCHANGE;
use crate::inputs::matrices::diag;
use crate::inputs::{grids, lent, numbers, transforms};
use crate::limits::{ROTATIONS, ROTATION_ENTRY};
use crate::random::Random;
use crate::tests::points;

#[derive(Clone, Debug)]
pub struct WeightsInput {
    pub rotations: Vec<i64>,
    pub d: Vec<i64>,
    pub ps: Vec<i64>,
    pub point: i64,
}

/// A third of a turn that moves a shift along the first axis by an odd number, and
/// takes no two of the points of (1,1,2) to one all the same.
pub const ODD_TURN: MatI = [[-1, 1, 0], [-1, 0, 0], [-2, 0, 1]];

impl WeightsInput {
    pub fn new(rotations: &[MatI], d: Vec3I, ps: Vec3I, point: i64) -> WeightsInput {
        WeightsInput {
            rotations: groups::flat(rotations),
            d: d.to_vec(),
            ps: ps.to_vec(),
            point,
        }
    }
}

/// The last point of a grid; 0 if it is outside the limits.
fn last(d: Vec3I) -> i64 {
    points(d).map_or(0, |points| points as i64 - 1)
}

/// A point of the grid, the first and the last more often, which more rotations keep.
fn point(random: &mut Random, d: Vec3I) -> i64 {
    let any = random.between(0, last(d));
    random.pick(&[0, last(d), any, any])
}

/// Groups that move the shift by even numbers, each at several points.
fn even() -> Vec<WeightsInput> {
    let pair = [IDENTITY, INVERSION];
    let swap = [IDENTITY, EXCHANGE];
    let mut inputs = Vec::new();
    for point in 0..4 {
        inputs.push(WeightsInput::new(&swap, [2, 2, 1], [1, 1, 0], point));
    }
    for (group, d, ps) in [
        (&pair[..], [1, 1, 3], [0; 3]),
        (&pair, [2, 3, 4], [1, 0, 1]),
        (&CUBIC, [4; 3], [0; 3]),
        (&CUBIC, [4; 3], [1; 3]),
        (&CUBIC, [3; 3], [1; 3]),
        (&HEXAGONAL, [3, 3, 2], [0; 3]),
        (&HEXAGONAL, [3, 3, 2], [0, 0, 1]),
        (&CUBIC, [20; 3], [1; 3]),
        (&HEXAGONAL, [26, 26, 12], [0, 0, 1]),
    ] {
        for point in [0, 1, last(d)] {
            inputs.push(WeightsInput::new(group, d, ps, point));
        }
    }
    inputs
}

/// Groups that do not, so that a rotation may take two points to one; lists that are no
/// group; members that stand twice; and no rotations at all.
fn others() -> Vec<WeightsInput> {
    let swap = [IDENTITY, EXCHANGE];
    let odd = closure(&[ODD_TURN]);
    let twice = [IDENTITY, INVERSION, IDENTITY, INVERSION, INVERSION];
    let mut inputs = Vec::new();
    for (list, d, ps) in [
        (&swap[..], [2, 2, 1], [1, 0, 0]),
        (&odd, [1, 1, 2], [1, 0, 0]),
        (&CUBIC, [4; 3], [1, 0, 0]),
        (&HEXAGONAL, [3, 3, 2], [1, 0, 0]),
        (&[diag([1, 1, 2])], [1, 1, 7], [0; 3]),
        (&[diag([1, 1, 3]), EXCHANGE], [1, 1, 7], [0, 0, 1]),
        (&[THREEFOLD], [3; 3], [0; 3]),
        (&[diag([0; 3])], [2, 2, 2], [1, 1, 1]),
        (&[diag([2, 2, 2]), [[-3; 3]; 3]], [5, 4, 3], [1, 0, 1]),
        (&twice, [1, 1, 3], [0; 3]),
        (&[], [1, 1, 3], [0; 3]),
        (&[], [5, 4, 3], [1, 1, 1]),
    ] {
        for point in [0, 1, last(d)] {
            inputs.push(WeightsInput::new(list, d, ps, point));
        }
    }
    inputs
}

/// Grids, shifts, points and lists at their limits and past them.
fn limits() -> Vec<WeightsInput> {
    let mut inputs = Vec::new();
    for d in grids::AT_LIMITS {
        for point in [last(d), last(d) + 1] {
            inputs.push(WeightsInput::new(&[INVERSION], d, [0; 3], point));
        }
    }
    for ps in [[1, 0, 1], [2, 0, 0], [0, -1, 0], [0, 0, i64::MIN]] {
        inputs.push(WeightsInput::new(&[IDENTITY], [2, 3, 2], ps, 11));
    }
    for point in [-1, i64::MIN, i64::MAX] {
        inputs.push(WeightsInput::new(&[IDENTITY], [2, 3, 2], [0; 3], point));
    }
    for rotations in groups::lent_at_limits() {
        inputs.push(WeightsInput {
            rotations,
            ..WeightsInput::new(&[], [2, 1, 2], [1, 1, 0], 3)
        });
    }
    inputs
}

/// Lengths of d and ps that are wrong, where every number would be refused.
fn lengths() -> Vec<WeightsInput> {
    let refused = WeightsInput::new(&[[[ROTATION_ENTRY + 1; 3]; 3]], [0; 3], [2; 3], -1);
    let mut inputs = Vec::new();
    for length in [0, 2, 4] {
        inputs.push(WeightsInput {
            d: vec![0; length],
            ..refused.clone()
        });
        inputs.push(WeightsInput {
            ps: vec![2; length],
            ..refused.clone()
        });
    }
    inputs
}

/// A group on the grid that it keeps, as its own operations, with any shift.
fn on_its_grid(random: &mut Random) -> WeightsInput {
    let given = transforms::grid_group(random);
    let mut group = given.rotations;
    random.shuffle(&mut group);
    match random.below(10) {
        0 => group = lent::repeated(&group, random.below(ROTATIONS + 1)),
        1..=2 => group = groups::damaged(random, group, 3),
        _ => {}
    }
    let ps = grids::shift(random);
    let ps = random.pick(&[[0; 3], [1; 3], ps, ps]);
    WeightsInput::new(&group, given.d, ps, point(random, given.d))
}

/// Any list on any grid.
fn any(random: &mut Random) -> WeightsInput {
    let d = grids::diagonal(random);
    WeightsInput {
        rotations: groups::lent(random),
        ..WeightsInput::new(&[], d, grids::shift(random), point(random, d))
    }
}

impl Input for WeightsInput {
    fn at_limits() -> Vec<WeightsInput> {
        [even(), others(), limits(), lengths()].concat()
    }

    fn random(random: &mut Random) -> WeightsInput {
        let mut input = if random.coin() {
            on_its_grid(random)
        } else {
            any(random)
        };
        match random.below(60) {
            0 => input.d = grids::damaged_diagonal(random).to_vec(),
            1 => input.ps = grids::damaged_shift(random).to_vec(),
            2 => lent::damage(random, &mut input.d),
            3 => lent::damage(random, &mut input.ps),
            4 => lent::damage(random, &mut input.rotations),
            5 => input.point = random.pick(&[-1, 65_536, i64::MIN, i64::MAX]),
            6 => input.point = input.d.iter().product(),
            7 => input.point = numbers::number(random),
            _ => {}
        }
        input
    }

    /// All 48 rotations on a grid of 40 by 40 by 40.
    fn typical(random: &mut Random) -> WeightsInput {
        let point = random.between(0, 40 * 40 * 40 - 1);
        WeightsInput::new(&CUBIC, [40; 3], grids::shift(random), point)
    }

    /// The slices rotations, d and ps; the point.
    fn write(&self, line: &mut Line) {
        line.slice(&self.rotations);
        line.slice(&self.d);
        line.slice(&self.ps);
        line.number(self.point);
    }
}
