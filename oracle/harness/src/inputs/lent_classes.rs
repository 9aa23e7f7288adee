//! What `ir_triplets_at_q` is lent: at the limits, random and damaged.

use phonors::common::{MatI, Vec3I, IDENTITY, INVERSION};
use phonors::transform_rotations::transform_rotations;

use crate::function::{Input, Line};
use crate::inputs::groups::{self, CUBIC};
use crate::inputs::lent::{self, repeated};
use crate::inputs::lent_transforms::EXCHANGE;
use crate::inputs::matrices::entries;
use crate::inputs::transforms::{self, Transform};
use crate::inputs::{grids, numbers};
use crate::limits::{RECIPROCAL_ROTATIONS, ROTATIONS, ROTATION_ENTRY};
use crate::random::Random;
use crate::tests::points;

#[derive(Clone, Debug)]
pub struct ClassesInput {
    pub q0: i64,
    pub d: Vec<i64>,
    pub rotations: Vec<i64>,
    pub time_reversal: bool,
    pub swappable: bool,
}

/// Every choice of time reversal and swapping.
pub const FLAGS: [[bool; 2]; 4] = [[false, false], [false, true], [true, false], [true, true]];

/// Counts of distinct rotations that are still accepted, without and with negatives
/// to join; one more is refused.
const COUNTS: [usize; 2] = [RECIPROCAL_ROTATIONS / 2, RECIPROCAL_ROTATIONS];

impl ClassesInput {
    pub fn new(q0: i64, d: Vec3I, rotations: &[MatI], flags: [bool; 2]) -> ClassesInput {
        let [time_reversal, swappable] = flags;
        ClassesInput {
            q0,
            d: d.to_vec(),
            rotations: groups::flat(rotations),
            time_reversal,
            swappable,
        }
    }

    /// All 48 rotations on a grid of 16 by 16 by 16.
    pub fn swapped(random: &mut Random) -> ClassesInput {
        ClassesInput::of_typical(random, true)
    }

    pub fn unswapped(random: &mut Random) -> ClassesInput {
        ClassesInput::of_typical(random, false)
    }

    fn of_typical(random: &mut Random, swappable: bool) -> ClassesInput {
        let d = [16; 3];
        ClassesInput::new(point(random, d), d, &CUBIC, [random.coin(), swappable])
    }
}

fn flags(random: &mut Random) -> [bool; 2] {
    random.pick(&FLAGS)
}

/// A point of the grid; the first and the last are kept by more.
fn point(random: &mut Random, d: Vec3I) -> i64 {
    let last = points(d).map_or(0, |points| points as i64 - 1);
    let any = random.between(0, last);
    random.pick(&[0, last, last / 2, any, any, any])
}

/// The paper's grid of three points, and the smallest ones.
fn small() -> Vec<ClassesInput> {
    let pair = [IDENTITY, INVERSION];
    let mut inputs = Vec::new();
    for flags in FLAGS {
        inputs.push(ClassesInput::new(1, [1, 1, 3], &pair, flags));
        inputs.push(ClassesInput::new(0, [1; 3], &pair, flags));
        inputs.push(ClassesInput::new(1, [1, 1, 3], &[], flags));
        inputs.push(ClassesInput::new(3, [2, 2, 1], &[EXCHANGE], flags));
        for q0 in [0, 5, 63] {
            inputs.push(ClassesInput::new(q0, [4; 3], &CUBIC, flags));
        }
        inputs.push(ClassesInput::new(100, [3, 5, 7], &pair, flags));
    }
    inputs
}

/// Lists at the limits of their length, of their entries and of the distinct ones.
fn lists() -> Vec<ClassesInput> {
    let input = |rotations, [time_reversal, swappable]: [bool; 2]| ClassesInput {
        rotations,
        ..ClassesInput::new(2, [2, 1, 2], &[], [time_reversal, swappable])
    };
    let mut inputs = Vec::new();
    for list in groups::lent_at_limits() {
        inputs.push(input(list, [false, true]));
    }
    for (k, list) in groups::distinct_at_limits().into_iter().enumerate() {
        inputs.push(input(list.clone(), [false, k % 2 == 0]));
        inputs.push(input(list, [true, k % 2 == 0]));
    }
    inputs
}

/// Grids and points at their limits and past them.
fn grids_at_limits() -> Vec<ClassesInput> {
    let mut inputs = Vec::new();
    for (k, d) in grids::AT_LIMITS.into_iter().enumerate() {
        let last = points(d).map_or(0, |points| points as i64 - 1);
        for q0 in [last, last + 1] {
            inputs.push(ClassesInput::new(q0, d, &[INVERSION], FLAGS[k % 4]));
        }
    }
    for q0 in [-1, i64::MIN, i64::MAX] {
        inputs.push(ClassesInput::new(q0, [2, 3, 2], &[IDENTITY], FLAGS[1]));
    }
    inputs
}

/// Lengths of d that are wrong, where every number would be refused.
fn lengths() -> Vec<ClassesInput> {
    let input = |d| ClassesInput {
        d: vec![0; d],
        ..ClassesInput::new(-1, [1; 3], &[[[ROTATION_ENTRY + 1; 3]; 3]], FLAGS[3])
    };
    vec![input(0), input(2), input(4)]
}

/// Distinct matrices about the counts that are accepted, the inversion among them or
/// not, and some of them repeated.
fn distinct(random: &mut Random) -> Vec<MatI> {
    let count = random.pick(&COUNTS) + random.below(2);
    let mut list: Vec<MatI> = Vec::new();
    if random.coin() {
        list.push(INVERSION);
    }
    while list.len() < count {
        let rotation = entries(random, 2);
        if !list.contains(&rotation) && rotation != INVERSION {
            list.push(rotation);
        }
    }
    random.shuffle(&mut list);
    for _ in 0..random.below(9) {
        list.insert(random.below(list.len() + 1), random.pick(&list));
    }
    list
}

/// A group on the grid that it keeps, with its members in any order and some of them
/// repeated.
fn on_its_grid(random: &mut Random) -> ClassesInput {
    let Transform {
        rotations: mut group,
        d,
        ..
    } = transforms::grid_group(random);
    random.shuffle(&mut group);
    match random.below(10) {
        0 => group = repeated(&group, group.len() + random.below(ROTATIONS - group.len())),
        1 => drop(group.pop()),
        2 => group = groups::damaged(random, group, 3),
        _ => {}
    }
    ClassesInput::new(point(random, d), d, &group, flags(random))
}

/// What belongs together, group or none, or any list on any grid.
fn any(random: &mut Random) -> ClassesInput {
    let d = grids::diagonal(random);
    let mut input = ClassesInput::new(point(random, d), d, &[], flags(random));
    input.rotations = match random.below(4) {
        0 => groups::flat(&distinct(random)),
        1 => {
            let given = transforms::belonging(random);
            let list = transform_rotations(&given.rotations, given.d, given.q);
            groups::flat(&list.expect("it belongs together"))
        }
        _ => groups::lent(random),
    };
    input
}

impl Input for ClassesInput {
    fn at_limits() -> Vec<ClassesInput> {
        [small(), lists(), grids_at_limits(), lengths()].concat()
    }

    fn random(random: &mut Random) -> ClassesInput {
        let mut input = if random.coin() {
            on_its_grid(random)
        } else {
            any(random)
        };
        match random.below(60) {
            0 => input.d = grids::damaged_diagonal(random).to_vec(),
            1 => lent::damage(random, &mut input.d),
            2 => lent::damage(random, &mut input.rotations),
            3 => input.q0 = random.pick(&[-1, 65_536, i64::MIN, i64::MAX]),
            4 => input.q0 = input.d.iter().product(),
            5 if !input.rotations.is_empty() => {
                let chosen = random.below(input.rotations.len());
                input.rotations[chosen] = numbers::outside(random, ROTATION_ENTRY);
            }
            _ => {}
        }
        input
    }

    fn typical(random: &mut Random) -> ClassesInput {
        let swappable = random.coin();
        ClassesInput::of_typical(random, swappable)
    }

    /// The point; the slices d and rotations; the two flags.
    fn write(&self, line: &mut Line) {
        line.number(self.q0);
        line.slice(&self.d);
        line.slice(&self.rotations);
        line.number(self.time_reversal.into());
        line.number(self.swappable.into());
    }
}
