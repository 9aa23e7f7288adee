//! What `bz_grid_addresses` is lent: at the limits, random and damaged.

use phonors::common::{mat_i_to_d, matmul_d, MatD, MatI, Vec3I, IDENTITY, INVERSION};

use crate::bz_grid_addresses::{given, tables};
use crate::function::{Input, Line};
use crate::inputs::floats::words;
use crate::inputs::images::{self, Images, DENSE, NO_TYPES, SPARSE, TYPES};
use crate::inputs::lattices::{self, REGULAR};
use crate::inputs::matrices::diag;
use crate::inputs::{grids, lent, matrices};
use crate::limits::{LATTICE_ENTRY, Q_ENTRY};
use crate::random::Random;

#[derive(Clone, Debug)]
pub struct ImagesInput {
    pub d: Vec<i64>,
    pub q: Vec<i64>,
    pub ps: Vec<i64>,
    pub lattice: Vec<f64>,
    pub bz_grid_type: i64,
    /// Places of the three outputs that are lent.
    pub places: [usize; 3],
}

/// Places of outputs that are lent to a call which is refused.
const FEW: [usize; 3] = [3, 2, 1];

impl ImagesInput {
    /// The typical grid with tables of one type.
    pub fn sparse(random: &mut Random) -> ImagesInput {
        ImagesInput::of(&images::typical(random, SPARSE))
    }

    pub fn dense(random: &mut Random) -> ImagesInput {
        ImagesInput::of(&images::typical(random, DENSE))
    }

    /// Those at the limits that differ in the ins, for a call that is lent no outputs.
    pub fn ins_at_limits() -> Vec<ImagesInput> {
        [exact(), lengths()].concat()
    }

    /// With outputs of the lengths that the call tells.
    pub fn of(given: &Images) -> ImagesInput {
        let input = ImagesInput::with(given, FEW);
        let lengths = self::given(&input).and_then(|given| tables(&given));
        ImagesInput {
            places: lengths.map_or(FEW, |tables| tables.lengths()),
            ..input
        }
    }

    pub fn with(given: &Images, places: [usize; 3]) -> ImagesInput {
        ImagesInput {
            d: given.d.to_vec(),
            q: given.q.as_flattened().to_vec(),
            ps: given.ps.to_vec(),
            lattice: given.lattice.as_flattened().to_vec(),
            bz_grid_type: given.bz_grid_type,
            places,
        }
    }
}

/// Columns of a cubic lattice, sheared.
pub fn sheared(factor: f64) -> MatD {
    [[1.0, factor, 0.0], [0.0, 1.0, 0.0], [0.0, 0.0, 1.0]]
}

pub fn diag_d([x, y, z]: [f64; 3]) -> MatD {
    [[x, 0.0, 0.0], [0.0, y, 0.0], [0.0, 0.0, z]]
}

/// With its rows and columns moved on, so that another axis is the first.
fn turned(lattice: MatD, axis: usize) -> MatD {
    let mut turned = lattice;
    turned.rotate_right(axis);
    turned.map(|mut row| {
        row.rotate_right(axis);
        row
    })
}

/// The point of the paper first, then the smallest grid and small ones.
fn small() -> Vec<Images> {
    let cubic = REGULAR[0];
    let mut small = Vec::new();
    for bz_grid_type in [DENSE, SPARSE] {
        small.push(Images::new([2, 1, 1], cubic, bz_grid_type));
        for lattice in REGULAR {
            small.push(Images::new([1; 3], lattice, bz_grid_type));
            small.push(Images::new([2; 3], lattice, bz_grid_type));
        }
        for ps in [[1, 0, 0], [0, 1, 1], [1; 3]] {
            let images = Images::new([1, 2, 1], REGULAR[3], bz_grid_type);
            small.push(Images { ps, ..images });
        }
        let plain = Images::new([2, 1, 2], REGULAR[1], bz_grid_type);
        let bases = [
            INVERSION,
            [[0, 1, 0], [0, 0, -1], [1, 0, 0]],
            [[1, Q_ENTRY, 0], [0, 1, -Q_ENTRY], [0, 0, 1]],
            [[1, 0, 0], [-Q_ENTRY, 1, 0], [Q_ENTRY, Q_ENTRY, -1]],
            [[999, 1_000, 0], [998, 999, 0], [1_000, 7, 1]],
        ];
        for q in bases {
            let ps = [1, 0, 1];
            small.extend([Images { q, ..plain }, Images { q, ps, ..plain }]);
        }
        small.push(Images::new([3, 4, 2], REGULAR[4], bz_grid_type));
    }
    small
}

/// Lattices that stretch the search: more images than candidates of size 2, more
/// than one image at a place of the doubled mesh, lengths that vanish.
fn wide() -> Vec<Images> {
    let lattices = [
        sheared(3.0),
        sheared(-5.0),
        sheared(12.0),
        matmul_d(
            &sheared(4.0),
            &mat_i_to_d(&[[1, 0, 0], [0, 1, 2], [0, 0, 1]]),
        ),
        diag_d([1.0, 1.0, 21.0]),
        diag_d([LATTICE_ENTRY, -LATTICE_ENTRY, LATTICE_ENTRY]),
        diag_d([1e-100, 1e-100, 1e-100]),
        diag_d([3e-105, -4e-105, 5e-105]),
        diag_d([1e-60, 1.0, LATTICE_ENTRY]),
    ];
    let mut wide = Vec::new();
    for bz_grid_type in TYPES {
        for lattice in lattices {
            wide.push(Images::new([1; 3], lattice, bz_grid_type));
            wide.push(Images::new([2, 1, 1], lattice, bz_grid_type));
            wide.push(Images::new([1, 3, 1], lattice, bz_grid_type));
        }
    }
    wide
}

/// A search range at its limit and past it, along each axis and in each of its
/// directions, at any point and at the last; and searches that accept nothing.
fn searches() -> Vec<Images> {
    let mut searches = Vec::new();
    for axis in 0..3 {
        for factor in [13.0, -13.0, 13f64.next_down(), 12.99, -12.7] {
            let lattice = turned(sheared(factor), axis);
            searches.push(Images::new([1; 3], lattice, TYPES[axis % 2]));
        }
        for factor in [5.5, 5.6, 5.7, 5.8, 5.9] {
            let mut d = [1; 3];
            d[(axis + 1) % 3] = 2;
            let lattice = turned(sheared(factor), axis);
            searches.push(Images::new(d, lattice, DENSE));
            searches.push(Images {
                ps: [1; 3],
                ..Images::new([1; 3], lattice, SPARSE)
            });
        }
        // The dual lengths vanish.
        let mut d = [1; 3];
        d[axis] = 2;
        let lattice = diag_d([1e-100, 1e-101, 1e-102]);
        searches.push(Images::new(d, lattice, DENSE));
        searches.push(Images::new(d, lattice, SPARSE));
        // Some dual lengths are infinite.
        let lattice = turned(diag_d([LATTICE_ENTRY, 1e-160, 1e-160]), axis);
        searches.push(Images::new([1; 3], lattice, DENSE));
    }
    searches
}

/// Refused before any search, each by one number, also where later tests would
/// refuse too.
fn refused() -> Vec<Images> {
    let plain = Images::new([2, 1, 1], REGULAR[0], DENSE);
    let mut refused = Vec::new();
    let over = LATTICE_ENTRY.next_up();
    for place in 0..9 {
        let (row, column) = (place / 3, place % 3);
        let entry = |number| {
            let mut q = IDENTITY;
            q[row][column] = number;
            Images { q, ..plain }
        };
        let float = |number| {
            let mut lattice = REGULAR[0];
            lattice[row][column] = number;
            Images { lattice, ..plain }
        };
        let sign = [1, -1][place % 2];
        refused.push(entry(sign * (Q_ENTRY + 1)));
        refused.push(float(sign as f64 * over));
        refused.push(float(
            [f64::NAN, f64::INFINITY, f64::NEG_INFINITY][place % 3],
        ));
    }
    for axis in 0..3 {
        for number in [-1, 2, i64::MAX] {
            let mut ps = [0; 3];
            ps[axis] = number;
            refused.push(Images { ps, ..plain });
        }
    }
    let singular: [MatD; 4] = [
        [[0.0; 3]; 3],
        [[1.0, 2.0, 3.0], [4.0, 5.0, 6.0], [5.0, 7.0, 9.0]],
        diag_d([1e-120, 1e-120, 1e-120]),
        diag_d([5e-324, 0.5, 1.0]),
    ];
    refused.extend(singular.map(|lattice| Images { lattice, ..plain }));
    let bases: [MatI; 5] = [
        [[0; 3]; 3],
        diag([2, 1, 1]),
        diag([-2, 1, 1]),
        [[1, 2, 3], [4, 5, 6], [5, 7, 9]],
        [[Q_ENTRY; 3]; 3],
    ];
    refused.extend(bases.map(|q| Images { q, ..plain }));
    let lattice = singular[1];
    let last = Images { lattice, ..plain };
    for bz_grid_type in NO_TYPES {
        let q = diag([2, 1, 1]);
        refused.push(Images {
            bz_grid_type,
            ..plain
        });
        refused.push(Images {
            bz_grid_type,
            q,
            ..last
        });
    }
    refused.push(Images {
        q: bases[0],
        ..last
    });
    refused.push(Images {
        bz_grid_type: 3,
        d: [0, 1, 1],
        ..last
    });
    refused
}

/// Grids at their limits and past them.
fn grids_at_limits() -> Vec<Images> {
    let images = |(k, d): (usize, &Vec3I)| Images::new(*d, REGULAR[0], TYPES[k % 2]);
    grids::AT_LIMITS.iter().enumerate().map(images).collect()
}

/// Lengths of the ins that are wrong, where every number would be refused.
fn lengths() -> Vec<ImagesInput> {
    let mut inputs = Vec::new();
    for wrong in 0..4 {
        for [by, at] in [[0, 0], [1, 1], [2, 3]] {
            let mut length = [3, 9, 3, 9];
            length[wrong] = [0, length[wrong] - 1, length[wrong] + 1][by];
            inputs.push(ImagesInput {
                d: vec![0; length[0]],
                q: vec![Q_ENTRY + 1; length[1]],
                ps: vec![2; length[2]],
                lattice: vec![f64::NAN; length[3]],
                bz_grid_type: 3,
                places: [at; 3],
            });
        }
    }
    inputs
}

/// Outputs that are longer than needed, or too short, each of them and all; also
/// where the search is refused before.
fn places() -> Vec<ImagesInput> {
    let mut inputs = Vec::new();
    for bz_grid_type in TYPES {
        let input = ImagesInput::of(&Images::new([2, 1, 1], REGULAR[0], bz_grid_type));
        let mut with = |change: &dyn Fn(usize, usize) -> usize| {
            let [x, y, z] = input.places;
            let places = [change(0, x), change(1, y), change(2, z)];
            inputs.push(ImagesInput {
                places,
                ..input.clone()
            });
        };
        for output in 0..3 {
            with(&|k, length| length - usize::from(k == output));
            with(&|k, length| length + usize::from(k == output));
            with(&|k, length| if k == output { 0 } else { length });
        }
        with(&|_, length| length + 7);
        with(&|_, _| 0);
        let refused = Images::new([1; 3], sheared(13.0), bz_grid_type);
        inputs.push(ImagesInput::with(&refused, [0; 3]));
        inputs.push(ImagesInput::with(&refused, [30; 3]));
    }
    inputs
}

/// Of every kind, with outputs of the lengths that the call tells.
fn exact() -> Vec<ImagesInput> {
    let kinds = [small(), wide(), searches(), refused(), grids_at_limits()];
    kinds.iter().flatten().map(ImagesInput::of).collect()
}

impl Input for ImagesInput {
    fn at_limits() -> Vec<ImagesInput> {
        [exact(), places(), lengths()].concat()
    }

    fn random(random: &mut Random) -> ImagesInput {
        let mut given = match random.below(1_000) {
            0 => images::large(random),
            1..=50 => images::crowded(random),
            51..=100 => images::at_edge(random),
            _ => images::any(random),
        };
        match random.below(60) {
            0 => given.q = matrices::of_size(random, Q_ENTRY),
            1 => given.q = matrices::damaged(random, given.q, Q_ENTRY),
            2 => given.d = grids::damaged_diagonal(random),
            3 => given.ps = grids::damaged_shift(random),
            4 => given.lattice = lattices::damaged(random, given.lattice),
            5 => given.bz_grid_type = random.pick(&NO_TYPES),
            _ => {}
        }
        let mut input = ImagesInput::of(&given);
        match random.below(20) {
            0..=2 => input.places = input.places.map(|length| length + random.below(9)),
            3 => input.places[random.below(3)] -= 1,
            _ => {}
        }
        match random.below(200) {
            0 => lent::damage(random, &mut input.d),
            1 => lent::damage(random, &mut input.q),
            2 => lent::damage(random, &mut input.ps),
            3 => input.lattice.resize(random.pick(&[0, 8, 10]), 1.0),
            _ => {}
        }
        input
    }

    /// A grid of 16 by 16 by 16 on a skewed lattice, of either type.
    fn typical(random: &mut Random) -> ImagesInput {
        let bz_grid_type = random.pick(&TYPES);
        ImagesInput::of(&images::typical(random, bz_grid_type))
    }

    /// The slices d, q and ps; the lattice as its length and two words for each of
    /// its floats; the type.
    fn write(&self, line: &mut Line) {
        line.slice(&self.d);
        line.slice(&self.q);
        line.slice(&self.ps);
        line.number(self.lattice.len() as i64);
        self.lattice.iter().for_each(|&x| line.numbers(&words(x)));
        line.number(self.bz_grid_type);
    }
}
