//! Whole chains: a crystal with its matrix, from the diagonalising to the triplets.

use phonors::common::{det_i, matmul_i, transpose_i, MatD, MatI, Vec3I, IDENTITY};

use crate::function::{Input, Line};
use crate::inputs::grids;
use crate::inputs::groups::{self, conjugate, CUBIC, HEXAGONAL};
use crate::inputs::images::{DENSE, NO_TYPES, SPARSE, TYPES};
use crate::inputs::lattices::{self, REGULAR, SKEWED};
use crate::inputs::lent::repeated;
use crate::inputs::lent_triplets::TYPICAL_POINTS;
use crate::inputs::matrices::{self, diag, elementary, is_within};
use crate::inputs::tables::TYPICAL;
use crate::inputs::transforms::{keeping, CELLS};
use crate::random::Random;

/// How the list reaches the transforming.
#[derive(Clone, Copy, Debug, PartialEq)]
pub enum Way {
    AsItStands,
    /// As `reciprocal_rotations` returns it.
    Rotations,
    /// As `reciprocal_group` returns it.
    Group,
    /// As `get_reciprocal_point_group` returns it, transposed or not.
    PointGroup(bool),
}

pub const WAYS: [Way; 5] = [
    Way::AsItStands,
    Way::Rotations,
    Way::Group,
    Way::PointGroup(false),
    Way::PointGroup(true),
];

impl Way {
    fn transposes(self) -> bool {
        matches!(self, Way::Rotations | Way::Group | Way::PointGroup(true))
    }
}

#[derive(Clone, Debug)]
pub struct ChainInput {
    pub a: MatI,
    pub rotations: Vec<MatI>,
    pub way: Way,
    pub time_reversal: bool,
    pub swappable: bool,
    pub lattice: MatD,
    pub ps: Vec3I,
    pub bz_grid_type: i64,
    /// Its remainder by the number of points is the point; a negative one lies outside.
    pub q0: i64,
    /// Which of the images of q0 type 2 starts from, likewise.
    pub image: usize,
}

impl ChainInput {
    /// The point of a grid of so many.
    pub fn point(&self, points: i64) -> i64 {
        if self.q0 < 0 {
            return points;
        }
        self.q0 % points.max(1)
    }

    /// The whole job on the typical grid with tables of one type.
    pub fn sparse(random: &mut Random) -> ChainInput {
        ChainInput::of_typical(random, SPARSE)
    }

    pub fn dense(random: &mut Random) -> ChainInput {
        ChainInput::of_typical(random, DENSE)
    }

    fn of_typical(random: &mut Random, bz_grid_type: i64) -> ChainInput {
        ChainInput {
            a: diag([16; 3]),
            rotations: TYPICAL.1.clone(),
            way: Way::AsItStands,
            time_reversal: true,
            swappable: true,
            lattice: SKEWED,
            ps: [0; 3],
            bz_grid_type,
            q0: random.pick(&TYPICAL_POINTS),
            image: 0,
        }
    }
}

/// A crystal: operations and a matrix that they keep.
#[derive(Clone, Debug)]
pub struct Crystal {
    pub rotations: Vec<MatI>,
    pub a: MatI,
}

/// Of so many points, at most. The operations are those that go into the transforming.
pub fn crystal(random: &mut Random, points: i64) -> Crystal {
    loop {
        let group: &[MatI] = if random.coin() { &CUBIC } else { &HEXAGONAL };
        let largest = random.pick(&[2, 4, 6, 16]);
        let [x, y, z] = [(); 3].map(|()| random.between(1, largest));
        let numbers = random.pick(&[[x, x, x], [x, x, z], [x, y, z]]);
        let cell = random.pick(&CELLS);
        let a = matmul_i(&cell, &diag(numbers));
        if det_i(&a).abs() > points {
            continue;
        }
        let (mut rotations, mut a) = keeping(random, group, a);
        if random.coin() {
            let members: Vec<MatI> = (0..random.below(4))
                .map(|_| random.pick(&rotations))
                .collect();
            rotations = groups::closure(&members);
        }
        // In another basis: E·R·E⁻¹ and A·E⁻¹.
        for _ in 0..random.below(5) {
            let basis = elementary(random);
            let other = conjugate(&rotations, &basis);
            if other.iter().all(|r| is_within(r, 10)) {
                (rotations, a) = (other, matmul_i(&a, &basis.inverse));
            }
        }
        return Crystal { rotations, a };
    }
}

/// A lattice whose search is often accepted.
pub fn lattice(random: &mut Random) -> MatD {
    match random.below(3) {
        0 => random.pick(&REGULAR),
        1 => lattices::plain(random),
        _ => lattices::lattice(random),
    }
}

impl Input for ChainInput {
    /// The job of the paper, both types and every way and flag.
    fn at_limits() -> Vec<ChainInput> {
        let mut inputs = Vec::new();
        for bz_grid_type in TYPES {
            for way in WAYS {
                for flags in 0..4 {
                    inputs.push(ChainInput {
                        a: diag([3, 1, 1]),
                        rotations: vec![IDENTITY],
                        way,
                        time_reversal: flags % 2 == 1,
                        swappable: flags / 2 == 1,
                        lattice: REGULAR[0],
                        ps: [0; 3],
                        bz_grid_type,
                        q0: 1,
                        image: 0,
                    });
                }
            }
        }
        inputs
    }

    fn random(random: &mut Random) -> ChainInput {
        let points = match random.below(500) {
            0 => 10_000,
            1..=30 => 600,
            _ => 150,
        };
        let Crystal { rotations, a } = crystal(random, points);
        let way = random.pick(&WAYS);
        let (ps, q0) = (grids::shift(random), random.between(0, i64::MAX));
        let mut input = ChainInput {
            a,
            rotations,
            way,
            time_reversal: random.coin(),
            swappable: random.coin(),
            lattice: lattice(random),
            ps: random.pick(&[[0; 3], [0; 3], ps]),
            bz_grid_type: random.pick(&TYPES),
            q0: random.pick(&[0, 1, q0, q0]),
            image: random.below(1_000),
        };
        random.shuffle(&mut input.rotations);
        match random.below(60) {
            0..=2 => input.rotations = groups::damaged(random, input.rotations, 3),
            3 => input.rotations = groups::list(random, 100),
            4 => input.rotations = repeated(&input.rotations, random.below(100)),
            5 => input.a = matrices::matrix(random),
            6 => input.a = matrices::nudged(random, input.a),
            7 => input.lattice = lattices::damaged(random, input.lattice),
            8 => input.bz_grid_type = random.pick(&NO_TYPES),
            9 => input.q0 = -1,
            10 => input.ps = grids::damaged_shift(random),
            _ => {}
        }
        if way.transposes() {
            input.rotations = input.rotations.iter().map(transpose_i).collect();
        }
        input
    }

    fn typical(random: &mut Random) -> ChainInput {
        let bz_grid_type = random.pick(&TYPES);
        ChainInput::of_typical(random, bz_grid_type)
    }

    /// A chain has no vectors.
    fn write(&self, _: &mut Line) {}
}
