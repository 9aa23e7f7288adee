//! Tables that are converted at the limits, and on both sides of them.

use phonors::common::Vec3I;

use crate::convert_bz_grid::{other_type, CLAUSES};
use crate::inputs::grids;
use crate::inputs::images::{Images, DENSE, NO_TYPES, SPARSE, TYPES};
use crate::inputs::lattices::REGULAR;
use crate::inputs::lent_conversions::ConvertInput;
use crate::inputs::lent_images::{diag_d, sheared};
use crate::inputs::standing::{breakable, broken_alone, Lists};
use crate::limits::{ADDRESS, MAP_VALUE};
use crate::random::Random;

/// Both types of grids that the Rust makes: small, sheared and stretched, with several images
/// at a place of the doubled mesh, and two of the largest.
fn image_calls() -> Vec<ConvertInput> {
    let mut inputs = Vec::new();
    for bz_grid_type in TYPES {
        let mut push = |d: Vec3I, lattice| {
            let images = Images::new(d, lattice, bz_grid_type);
            inputs.push(ConvertInput::made(&images).expect("accepted"));
        };
        push([2, 1, 1], REGULAR[0]);
        for lattice in REGULAR {
            push([1; 3], lattice);
            push([2; 3], lattice);
        }
        for lattice in [sheared(3.0), sheared(-5.0), diag_d([1.0, 1.0, 21.0])] {
            push([1; 3], lattice);
            push([1, 3, 1], lattice);
        }
        push([256, 1, 1], REGULAR[0]);
        push([256, 256, 1], REGULAR[0]);
        let shifted = Images {
            ps: [1, 0, 1],
            ..Images::new([1, 2, 1], REGULAR[3], bz_grid_type)
        };
        inputs.push(ConvertInput::made(&shifted).expect("accepted"));
    }
    inputs
}

/// Nine images of one point, of which one stands at the place that marks an empty one.
pub fn nine_images(bz_grid_type: i64) -> ConvertInput {
    let images = Images::new([1; 3], diag_d([1.0, 0.06, 0.06]), bz_grid_type);
    ConvertInput::made(&images).expect("accepted")
}

/// With each place of its doubled mesh another one: the mark of an empty place, the image that
/// has the mark's number, an earlier image.
fn marked() -> Vec<ConvertInput> {
    let sparse = nine_images(SPARSE);
    let mut inputs = vec![sparse.clone(), nine_images(DENSE)];
    for place in 0..8 {
        for value in [0, 2, 5, 7, 8, 9] {
            if sparse.map[place] != value {
                inputs.push(sparse.with(|input| input.map[place] = value));
            }
        }
    }
    inputs
}

/// Lists that no lattice need have: addresses in any order, at their limits, and twelve of a
/// point.
fn laid() -> Vec<ConvertInput> {
    let far = ADDRESS;
    let twelve: Vec<Vec3I> = (0..12).map(|k| [k % 5 - 2, 1 - k, 2 * k]).collect();
    let lists = [
        Lists::new([1; 3], &[&[[0; 3]]]),
        Lists::new([1; 3], &[&[[7, -3, 2], [0; 3], [-1, 0, 5]]]),
        Lists::new([1; 3], &[&[[far, -far, far], [-far, far, 0]]]),
        Lists::new([1; 3], &[&twelve]),
        Lists::new([2, 1, 1], &[&[[2, 5, 0], [0; 3]], &[[-1, 0, 0]]]),
        Lists::new(
            [2, 1, 1],
            &[&[[0; 3]], &[[far - 1, 0, 0], [1 - far, 0, 0], [3, 2, 1]]],
        ),
        Lists::new([1, 1, 2], &[&[[0; 3], [0, 0, 4], [4, 0, 0]], &[[0, 0, -1]]]),
    ];
    let both = |lists: &Lists| TYPES.map(|bz_grid_type| lists.table(bz_grid_type));
    lists.iter().flat_map(both).collect()
}

/// A small table of each type that could stand.
fn small() -> [ConvertInput; 2] {
    let mut lists = Lists::new([2, 1, 1], &[&[[0; 3], [2, 1, 0]], &[[-1, 0, 0]]]);
    lists.ps = [0, 1, 0];
    TYPES.map(|bz_grid_type| lists.table(bz_grid_type))
}

/// One of four points, with one image and with more.
fn stands() -> [ConvertInput; 2] {
    let lists = [
        &[[0; 3], [2, 0, 0]][..],
        &[[-1, 0, 0]],
        &[[0, 1, 0], [0, -1, 4], [2, 1, 0]],
    ];
    let mut lists = Lists::new([2, 2, 1], &[lists[0], lists[1], lists[2], &[[3, -1, 1]]]);
    lists.ps = [0, 1, 0];
    TYPES.map(|bz_grid_type| lists.table(bz_grid_type))
}

/// Each clause broken alone, in several ways, of tables with few images.
fn one_clause() -> Vec<ConvertInput> {
    let mut random = Random::new(19);
    let mut few = |bz_grid_type, clause| loop {
        let input = broken_alone(&mut random, bz_grid_type, clause);
        if input.grg.len() <= 9 {
            return input;
        }
    };
    let mut inputs = Vec::new();
    for bz_grid_type in TYPES {
        for clause in CLAUSES {
            if breakable(bz_grid_type, clause) {
                inputs.extend((0..6).map(|_| few(bz_grid_type, clause)));
            }
        }
    }
    inputs
}

/// Counts that do not rise from 0 to the number of images, where all can be read.
fn not_rising() -> Vec<ConvertInput> {
    let mut inputs = Vec::new();
    for plain in stands() {
        let counts = plain.map.len() - 5;
        let images = plain.map[counts + 4];
        for numbers in [
            [0, images + 2, images - 1, images, images],
            [0, MAP_VALUE, 1, 2, images],
            [images; 5],
            [0, 0, 0, 0, images],
            [0, 1, 1, 1, images],
            [1, 1, 2, 3, images],
            [0; 5],
            [0, 2, 3, 3, 0],
            [0, images, images, images, images - 1],
        ] {
            inputs.push(plain.with(|input| input.map[counts..].copy_from_slice(&numbers)));
        }
    }
    // Three images of two points, of which the map tells five.
    let two = Lists::new([2, 1, 1], &[&[[0; 3], [2, 0, 0]], &[[1, 0, 0]]]).table(DENSE);
    inputs.push(two.with(|input| input.map = vec![0, 5, 3]));
    inputs
}

/// A place that cannot be read, of a table that could stand and of one that could not.
fn unreadable() -> Vec<ConvertInput> {
    let mut inputs = Vec::new();
    let [sparse, dense] = small();
    let bad = dense.with(|input| input.grg[0] = 1);
    for input in [sparse, dense, bad] {
        let (last, images) = (input.map.len() - 1, input.grg.len());
        let mut push = |change: &dyn Fn(&mut ConvertInput)| inputs.push(input.with(change));
        for length in [0, 1, last - 2, last] {
            push(&|input| input.map.truncate(length));
        }
        for value in [-1, i64::MIN, MAP_VALUE + 1, i64::MAX] {
            for place in [0, last - 2, last - 1, last] {
                push(&|input| input.map[place] = value);
            }
        }
        for more in [
            1,
            2,
            MAP_VALUE - input.map[last] - 1,
            MAP_VALUE - input.map[last],
        ] {
            push(&|input| input.map[last] += more);
        }
        push(&|input| input.addresses.truncate(3 * images - 3));
        push(&|input| input.addresses.clear());
        push(&|input| input.grg.truncate(images - 1));
        push(&|input| input.grg.clear());
        for number in [ADDRESS + 1, -ADDRESS - 1, i64::MIN, i64::MAX] {
            for place in [0, 4, 3 * images - 1] {
                push(&|input| input.addresses[place] = number);
            }
        }
    }
    inputs
}

/// Longer slices than the map counts, with anything behind; also where a clause is broken.
fn longer() -> Vec<ConvertInput> {
    let mut random = Random::new(3);
    let mut inputs = Vec::new();
    for plain in small() {
        for number in [0, -1, i64::MIN, i64::MAX] {
            inputs.push(plain.with(|input| {
                input.addresses.extend([number; 6]);
                input.map.extend([number; 2]);
                input.grg.push(number);
            }));
        }
        for broken in [false, true] {
            let mut input = plain.with(|input| input.grg[1] += i64::from(broken));
            input.behind(&mut random);
            inputs.push(input);
        }
    }
    inputs
}

/// Outputs that are longer than needed, or too short, each of them and all; also where the
/// table could not stand.
fn outputs() -> Vec<ConvertInput> {
    let mut inputs = Vec::new();
    for plain in small() {
        let mut with = |change: &dyn Fn(usize, usize) -> usize| {
            let [x, y, z] = plain.places;
            let places = [change(0, x), change(1, y), change(2, z)];
            inputs.push(plain.with(|input| input.places = places));
        };
        for output in 0..3 {
            with(&|k, length| length - usize::from(k == output));
            with(&|k, length| length + usize::from(k == output));
            with(&|k, length| if k == output { 0 } else { length });
        }
        with(&|_, length| length + 7);
        with(&|_, _| 0);
        inputs.push(plain.with(|input| (input.places, input.grg[0]) = ([0; 3], 1)));
    }
    inputs
}

/// Records outside their limits and of another grid or type, and lengths that are wrong, where
/// later tests would refuse too.
fn records_at_limits() -> Vec<ConvertInput> {
    let mut inputs = Vec::new();
    let [sparse, dense] = small();
    let bad = sparse.with(|input| input.map.clear());
    for input in [sparse, dense, bad] {
        let mut push = |change: &dyn Fn(&mut ConvertInput)| inputs.push(input.with(change));
        for d in grids::AT_LIMITS {
            push(&|input| input.table[..3].copy_from_slice(&d));
        }
        for place in 3..6 {
            for number in [-1, 2, i64::MIN, i64::MAX] {
                push(&|input| input.table[place] = number);
            }
            push(&|input| input.table[place] ^= 1);
        }
        for number in NO_TYPES {
            push(&|input| input.table[6] = number);
            push(&|input| (input.table[6], input.table[0]) = (number, 0));
        }
        push(&|input| input.table[6] = other_type(input.table[6]));
        push(&|input| input.table[..3].rotate_left(1));
        for length in [0, 6, 8] {
            push(&|input| input.table.resize(length, 0));
        }
        for more in [1, 2] {
            push(&|input| input.addresses.resize(input.addresses.len() + more, 0));
            push(&|input| {
                input.addresses.resize(input.addresses.len() + more, 0);
                input.table[0] = 0;
            });
        }
    }
    inputs
}

/// The point of the paper first.
pub fn of_every_kind() -> Vec<ConvertInput> {
    [
        image_calls(),
        marked(),
        laid(),
        small().to_vec(),
        stands().to_vec(),
        one_clause(),
        not_rising(),
        unreadable(),
        longer(),
        outputs(),
        records_at_limits(),
    ]
    .concat()
}
