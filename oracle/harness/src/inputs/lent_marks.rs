//! What `mark_candidates` is lent: at the limits, random and damaged.

use phonors::common::{MatI, Vec3I, IDENTITY};

use crate::function::{Input, Line};
use crate::inputs::matrices::{diag, entries};
use crate::inputs::{grids, images, lent, matrices, numbers};
use crate::limits::{INNER_PRODUCT, Q_ENTRY};
use crate::random::Random;
use crate::tests::points;

/// Inner products of the columns of a lattice: 00, 01, 02, 11, 12, 22.
pub type Products = [i64; 6];

#[derive(Clone, Debug)]
pub struct MarksInput {
    pub d: Vec<i64>,
    pub q: Vec<i64>,
    pub ps: Vec<i64>,
    pub lowest: Vec<i64>,
    pub highest: Vec<i64>,
    pub point: i64,
}

/// The ranges, as lowest and highest.
pub type Ranges = [Products; 2];

pub const CUBE: Products = [1, 0, 0, 1, 0, 1];

/// A grid whose point 1 has a first coordinate of exactly 1/2; in f64 it is a little below.
pub const HALF: (Vec3I, MatI, Vec3I) = ([3, 1, 3], [[1, 1, -2], [0, 1, 0], [0, -1, 1]], [0, 1, 1]);

/// Ranges in which neither end is alike.
const WIDE: Ranges = [[1, -1, 0, 1, 0, 1], [3, 1, 0, 2, 0, 2]];

/// A Q with the largest entries, and one that is not of determinant 1 or -1.
const LARGE_Q: MatI = [[1000, 999, 0], [-1, -1, 0], [1000, -1000, 1]];
const DOUBLED: MatI = [[2, 0, 0], [0, 1, 0], [0, 0, 1]];

impl MarksInput {
    pub fn new(d: Vec3I, q: MatI, ps: Vec3I, [low, high]: Ranges, point: i64) -> MarksInput {
        MarksInput {
            d: d.to_vec(),
            q: q.as_flattened().to_vec(),
            ps: ps.to_vec(),
            lowest: low.to_vec(),
            highest: high.to_vec(),
            point,
        }
    }

    /// A typical point with ranges so wide that nothing is certain, so that every candidate
    /// is compared with every other.
    pub fn open(random: &mut Random) -> MarksInput {
        MarksInput {
            lowest: vec![-INNER_PRODUCT; 6],
            highest: vec![INNER_PRODUCT; 6],
            ..MarksInput::typical(random)
        }
    }

    /// Without shift, in the lattice's own basis.
    fn plain(d: Vec3I, ranges: Ranges, point: i64) -> MarksInput {
        MarksInput::new(d, IDENTITY, [0; 3], ranges, point)
    }
}

/// The ranges of one value each.
fn exactly(products: Products) -> Ranges {
    [products; 2]
}

/// The worked examples of the readings: a coordinate of exactly 1/2; a cube, where the two
/// ends of half a step tie; ranges in which a candidate is open.
fn examples() -> Vec<MarksInput> {
    let (d, q, ps) = HALF;
    let mut inputs = vec![
        MarksInput::new(d, q, ps, exactly(CUBE), 1),
        MarksInput::new(d, q, ps, WIDE, 1),
    ];
    for point in [0, 1] {
        inputs.push(MarksInput::plain([2, 1, 1], exactly(CUBE), point));
        inputs.push(MarksInput::plain([2, 1, 1], WIDE, point));
    }
    inputs
}

/// Points at which several candidates are equally long, forms that are not positive, and
/// ranges that hold several kinds of them.
fn forms() -> Vec<MarksInput> {
    let mut inputs = Vec::new();
    for products in [
        CUBE,
        [2, -1, 0, 2, 0, 3],
        [2, 1, 1, 2, 1, 2],
        [3, -1, -1, 3, -1, 3],
        [0; 6],
        [1, 0, 0, 1, 0, -1],
        [-1, 0, 0, -1, 0, -1],
        [0, 1, 0, 0, 0, 0],
        [1, 1, 0, 1, 0, 0],
        [4, 7, -5, 3, 2, -6],
    ] {
        for point in [0, 7] {
            inputs.push(MarksInput::plain([2, 2, 2], exactly(products), point));
        }
        let low = products.map(|number| number - 1);
        inputs.push(MarksInput::plain([3, 2, 4], [low, products], 17));
    }
    for width in [1, 10, 1_000, INNER_PRODUCT] {
        let ranges = [[-width; 6], [width; 6]];
        inputs.push(MarksInput::new([2, 2, 3], IDENTITY, [1, 0, 1], ranges, 5));
    }
    inputs
}

/// The largest grids, entries and numbers, at both signs.
fn largest() -> Vec<MarksInput> {
    let most = INNER_PRODUCT;
    let signs = [[1; 6], [-1; 6], [1, -1, 1, 1, -1, 1], [-1, 1, 1, 1, 1, -1]];
    let mut inputs = Vec::new();
    for (d, q) in [
        ([256, 256, 1], LARGE_Q),
        ([1, 256, 256], LARGE_Q.map(|row| row.map(|entry| -entry))),
        ([64, 32, 32], IDENTITY),
    ] {
        for point in [0, 65_535, 32_768, 12_345] {
            let sign = signs[inputs.len() % 4];
            let values = sign.map(|sign| sign * most);
            inputs.push(MarksInput::new(d, q, [1; 3], exactly(values), point));
        }
        inputs.push(MarksInput::new(d, q, [1; 3], [[-most; 6], [most; 6]], 1));
    }
    inputs
}

/// Each limit from both sides, each number by itself.
fn limits() -> Vec<MarksInput> {
    let plain = MarksInput::plain([2, 3, 1], exactly(CUBE), 5);
    let mut inputs = Vec::new();
    for d in grids::AT_LIMITS {
        let last = points(d).map_or(0, |points| points as i64 - 1);
        for point in [last, last + 1] {
            inputs.push(MarksInput::plain(d, exactly(CUBE), point));
        }
    }
    for ps in [[1, 0, 1], [2, 0, 0], [0, -1, 0]] {
        inputs.push(MarksInput::new([2, 3, 1], IDENTITY, ps, exactly(CUBE), 5));
    }
    for point in [-1, i64::MIN, i64::MAX] {
        inputs.push(MarksInput {
            point,
            ..plain.clone()
        });
    }
    for entry in [Q_ENTRY, Q_ENTRY + 1, -Q_ENTRY - 1, i64::MIN] {
        let mut input = plain.clone();
        input.q[5] = entry;
        inputs.push(input);
    }
    for k in 0..6 {
        for number in [INNER_PRODUCT, INNER_PRODUCT + 1, i64::MAX] {
            let mut input = plain.clone();
            input.highest[k] = number;
            inputs.push(input.clone());
            let [low, high] = [&input.highest, &input.lowest].map(|slice| {
                let negated = slice.iter().map(|number| -number);
                negated.collect::<Vec<i64>>()
            });
            inputs.push(MarksInput {
                lowest: low,
                highest: high,
                ..input
            });
        }
    }
    inputs
}

/// 13 for each slice, then 3, then 20, then 10, each with what would follow it.
fn refusals() -> Vec<MarksInput> {
    let plain = MarksInput::plain([2, 3, 1], exactly(CUBE), 5);
    let mut inputs = Vec::new();
    for k in 0..6 {
        let mut crossed = plain.clone();
        crossed.lowest[k] = crossed.highest[k] + 1;
        inputs.push(crossed.clone());
        crossed.lowest[k] = INNER_PRODUCT + 1;
        inputs.push(crossed);
    }
    let mut refused = plain.clone();
    refused.q = DOUBLED.as_flattened().to_vec();
    inputs.push(refused.clone());
    refused.highest[5] = -1;
    inputs.push(refused.clone());
    refused.point = 6;
    inputs.push(refused.clone());
    for slice in 0..5 {
        for length in [-1, 1] {
            let mut input = refused.clone();
            let slices = [
                &mut input.d,
                &mut input.q,
                &mut input.ps,
                &mut input.lowest,
                &mut input.highest,
            ];
            let chosen = slices.into_iter().nth(slice).expect("a slice");
            chosen.resize((chosen.len() as i64 + length) as usize, 7);
            inputs.push(input);
        }
    }
    for q in [[[0; 3]; 3], [[1; 3]; 3], diag([1, 1, 3]), diag([-1, 1, 1])] {
        let q = q.as_flattened().to_vec();
        inputs.push(MarksInput { q, ..plain.clone() });
    }
    inputs
}

/// Inner products of whole columns with entries up to a size, or any numbers.
fn products(random: &mut Random) -> Products {
    let size = random.pick(&[2, 10, 100, 500]);
    if random.one_in(4) {
        return [(); 6].map(|()| random.within(size));
    }
    let columns = match random.below(3) {
        0 => diag([(); 3].map(|()| random.between(1, size))),
        _ => entries(random, size),
    };
    inner_products(columns)
}

/// The inner products of the columns of a matrix.
pub fn inner_products(lattice: MatI) -> Products {
    let product = |i: usize, j: usize| lattice.iter().map(|row| row[i] * row[j]).sum();
    [
        product(0, 0),
        product(0, 1),
        product(0, 2),
        product(1, 1),
        product(1, 2),
        product(2, 2),
    ]
}

/// Ranges about six numbers: of one value, narrow, wide, or of one number alone.
fn ranges(random: &mut Random, about: Products) -> Ranges {
    let kind = random.below(4);
    let chosen = random.below(6);
    let width = |random: &mut Random, k: usize| match kind {
        0 => 0,
        1 => random.between(0, 2),
        2 => random.between(0, 1 + about[k].abs() / 4),
        _ if k == chosen => random.between(0, 1 + about[k].abs()),
        _ => 0,
    };
    let mut ranges = [about; 2];
    for k in 0..6 {
        ranges[0][k] -= width(random, k);
        ranges[1][k] += width(random, k);
    }
    ranges.map(|end| end.map(|number| number.clamp(-INNER_PRODUCT, INNER_PRODUCT)))
}

impl Input for MarksInput {
    fn at_limits() -> Vec<MarksInput> {
        [examples(), forms(), largest(), limits(), refusals()].concat()
    }

    fn random(random: &mut Random) -> MarksInput {
        let d = grids::diagonal(random);
        let last = points(d).map_or(0, |points| points as i64 - 1);
        let q = match random.below(20) {
            0 => matrices::of_size(random, 3),
            _ => images::basis(random),
        };
        let about = products(random);
        let ranges = ranges(random, about);
        let any = random.between(0, last);
        let point = random.pick(&[0, last, any, any, any]);
        let mut input = MarksInput::new(d, q, grids::shift(random), ranges, point);
        match random.below(60) {
            0 => input.d = grids::damaged_diagonal(random).to_vec(),
            1 => input.ps = grids::damaged_shift(random).to_vec(),
            2 => input.q[random.below(9)] = numbers::outside(random, Q_ENTRY),
            3 => input.lowest[random.below(6)] = numbers::outside(random, INNER_PRODUCT),
            4 => input.highest[random.below(6)] = numbers::outside(random, INNER_PRODUCT),
            5 => input.point = random.pick(&[-1, last + 1, i64::MIN, i64::MAX]),
            6..=7 => std::mem::swap(&mut input.lowest, &mut input.highest),
            8 => lent::damage(random, &mut input.d),
            9 => lent::damage(random, &mut input.q),
            10 => lent::damage(random, &mut input.ps),
            11 => lent::damage(random, &mut input.lowest),
            12 => lent::damage(random, &mut input.highest),
            _ => {}
        }
        input
    }

    /// A point of a large grid on a lattice of whole columns, known to about a tenth.
    fn typical(random: &mut Random) -> MarksInput {
        let about = inner_products([[300, 20, -30], [10, 320, 40], [-20, 30, 280]]);
        let [low, high] = [-1, 1].map(|side| {
            let part = |number: i64| number + side * random.between(0, number.abs() / 20);
            about.map(part)
        });
        let point = random.between(0, 40 * 40 * 40 - 1);
        MarksInput::new([40; 3], IDENTITY, grids::shift(random), [low, high], point)
    }

    /// The slices d, Q, ps, lowest and highest; the point.
    fn write(&self, line: &mut Line) {
        line.slice(&self.d);
        line.slice(&self.q);
        line.slice(&self.ps);
        line.slice(&self.lowest);
        line.slice(&self.highest);
        line.number(self.point);
    }
}
