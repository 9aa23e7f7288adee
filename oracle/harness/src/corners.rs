//! The candidates of a point where the lattice is known only within ranges, worked out in
//! 128 bits at every corner of the ranges.
//!
//! A squared length is linear in the six inner products. So what is said of all six
//! numbers in the ranges is said of the 64 choices of lowest and highest ones.

use phonors::common::{det_i, MatI, Vec3I};

use crate::inputs::lent_marks::{MarksInput, Products, Ranges};
use crate::inputs::matrices::is_within;
use crate::limits::{INNER_PRODUCT, Q_ENTRY};
use crate::refusals::{INVERTED_RANGE, NOT_UNIMODULAR_Q};
use crate::tests::{fixed, limit, matrix, points, shift_fits};

/// The candidates of a point.
pub const CANDIDATES: usize = 125;

/// The translations along an axis, in the order of `for_each_candidate`.
pub const TRANSLATIONS: [i128; 5] = [0, 1, 2, -2, -1];

pub const OPEN: i64 = 0;
pub const NEAREST: i64 = 1;
pub const BEATEN: i64 = 2;

/// The address of a point.
pub fn address(d: Vec3I, point: i64) -> Vec3I {
    [point % d[0], point / d[0] % d[1], point / (d[0] * d[1])]
}

/// 2·N times the reduced coordinates of a point.
pub fn coordinates(d: Vec3I, q: MatI, ps: Vec3I, point: i64) -> [i128; 3] {
    let points: i64 = d.iter().product();
    let address = address(d, point);
    let scaled = [0, 1, 2].map(|k| (2 * address[k] + ps[k]) * (points / d[k]));
    q.map(|row| {
        (0..3)
            .map(|k| i128::from(row[k]) * i128::from(scaled[k]))
            .sum()
    })
}

/// The whole number nearest to x / 2n, of two the one away from zero.
pub fn rounded(x: i128, n: i128) -> i128 {
    (x.abs() + n) / (2 * n) * x.signum()
}

/// 2·N times what rounding leaves of each coordinate.
pub fn rests(coordinates: [i128; 3], points: i128) -> [i128; 3] {
    coordinates.map(|x| x - 2 * points * rounded(x, points))
}

/// The translation of each candidate.
pub fn candidates() -> Vec<[i128; 3]> {
    let mut candidates = Vec::with_capacity(CANDIDATES);
    for m0 in TRANSLATIONS {
        for m1 in TRANSLATIONS {
            candidates.extend(TRANSLATIONS.map(|m2| [m0, m1, m2]));
        }
    }
    candidates
}

/// The choices of a lowest or a highest of each range.
pub fn corners(ranges: Ranges) -> Vec<Products> {
    let corner = |choice: usize| [0, 1, 2, 3, 4, 5].map(|k| ranges[choice >> k & 1][k]);
    (0..64).map(corner).collect()
}

/// (2·N)² times the squared length of a candidate.
pub fn squared_length(x: [i128; 3], products: Products) -> i128 {
    let [g00, g01, g02, g11, g12, g22] = products.map(i128::from);
    let [x, y, z] = x;
    g00 * x * x + g11 * y * y + g22 * z * z + 2 * (g01 * x * y + g02 * x * z + g12 * y * z)
}

/// For each candidate its squared length at each corner.
pub fn lengths(rests: [i128; 3], points: i128, corners: &[Products]) -> Vec<Vec<i128>> {
    let length = |m: [i128; 3]| {
        let x = [0, 1, 2].map(|k| rests[k] + 2 * points * m[k]);
        corners.iter().map(|&g| squared_length(x, g)).collect()
    };
    candidates().into_iter().map(length).collect()
}

/// Document 02's words: nearest if against every other candidate no corner makes it
/// longer, beaten if some one other is shorter at all of them.
pub fn marks(lengths: &[Vec<i128>], shorter: fn(&i128, &i128) -> bool) -> Vec<i64> {
    let mark = |this: &Vec<i128>| {
        let others = || lengths.iter().filter(|&other| !std::ptr::eq(other, this));
        let loses = |other: &&Vec<i128>| other.iter().zip(this).any(|(y, x)| shorter(y, x));
        let always = |other: &Vec<i128>| other.iter().zip(this).all(|(y, x)| shorter(y, x));
        if others().find(loses).is_none() {
            NEAREST
        } else if others().any(always) {
            BEATEN
        } else {
            OPEN
        }
    };
    lengths.iter().map(mark).collect()
}

/// The same in 64 bits by a pair after the other, for the bench: the most by which one
/// can be longer than another has of each product the end that its factor asks for.
pub fn marks_by_pairs(rests: [i64; 3], points: i64, [low, high]: &Ranges, marks: &mut [i64]) {
    let mut weights = [[0; 6]; CANDIDATES];
    for (weight, m) in weights.iter_mut().zip(candidates()) {
        let [x, y, z] = [0, 1, 2].map(|k| rests[k] + 2 * points * m[k] as i64);
        *weight = [x * x, 2 * x * y, 2 * x * z, y * y, 2 * y * z, z * z];
    }
    let most = |x: &Products, y: &Products| -> i64 {
        let end = |k: usize| {
            let factor = x[k] - y[k];
            factor * if factor > 0 { high[k] } else { low[k] }
        };
        (0..6).map(end).sum()
    };
    for (x, mark) in weights.iter().zip(marks) {
        *mark = if weights.iter().all(|y| most(x, y) <= 0) {
            NEAREST
        } else if weights.iter().any(|y| most(y, x) < 0) {
            BEATEN
        } else {
            OPEN
        };
    }
}

/// The ins, within the limits and of the right lengths.
pub struct Given {
    pub d: Vec3I,
    pub q: MatI,
    pub ps: Vec3I,
    pub ranges: Ranges,
    pub point: i64,
}

impl Given {
    pub fn of(input: &MarksInput) -> Result<Given, i64> {
        let given = Given {
            d: fixed(&input.d)?,
            q: matrix(&input.q)?,
            ps: fixed(&input.ps)?,
            ranges: [fixed(&input.lowest)?, fixed(&input.highest)?],
            point: input.point,
        };
        Ok(given)
    }

    /// The tests after the lengths.
    pub fn tested(&self) -> Result<(), i64> {
        let points = points(self.d)? as i64;
        limit(is_within(&self.q, Q_ENTRY) && shift_fits(self.ps))?;
        let within = |number: &i64| (-INNER_PRODUCT..=INNER_PRODUCT).contains(number);
        limit(self.ranges.as_flattened().iter().all(within))?;
        limit((0..points).contains(&self.point))?;
        let [low, high] = self.ranges;
        let ordered = (0..6).all(|k| low[k] <= high[k]);
        ordered.then_some(()).ok_or(INVERTED_RANGE)?;
        let unimodular = [1, -1].contains(&det_i(&self.q));
        unimodular.then_some(()).ok_or(NOT_UNIMODULAR_Q)
    }

    pub fn points(&self) -> i128 {
        self.d.iter().product::<i64>().into()
    }

    pub fn coordinates(&self) -> [i128; 3] {
        coordinates(self.d, self.q, self.ps, self.point)
    }

    pub fn rests(&self) -> [i128; 3] {
        rests(self.coordinates(), self.points())
    }

    pub fn marks(&self) -> Vec<i64> {
        let corners = corners(self.ranges);
        marks(&lengths(self.rests(), self.points(), &corners), i128::lt)
    }
}

#[cfg(test)]
mod tests {
    use phonors::bzgrid::bz_grid_addresses;

    use super::*;
    use crate::function::Input;
    use crate::inputs::grids;
    use crate::inputs::images::basis;
    use crate::inputs::lent_marks::{inner_products, HALF};
    use crate::inputs::matrices::{adjugate, entries};
    use crate::random::Random;

    /// Random ins that are accepted, with their marks.
    fn accepted(random: &mut Random) -> (Given, Vec<i64>) {
        loop {
            let given = Given::of(&MarksInput::random(random));
            if let Some(given) = given.ok().filter(|given| given.tested().is_ok()) {
                let marks = given.marks();
                return (given, marks);
            }
        }
    }

    #[test]
    fn the_order_of_the_candidates() {
        let first = [
            [0, 0, 0],
            [0, 0, 1],
            [0, 0, 2],
            [0, 0, -2],
            [0, 0, -1],
            [0, 1, 0],
        ];
        assert_eq!(candidates()[..6], first);
        assert_eq!(candidates()[124], [-1, -1, -1]);
    }

    #[test]
    fn halves_go_away_from_zero() {
        assert_eq!(
            [3, -3, 2, -2, 9, -9].map(|x| rounded(x, 3)),
            [1, -1, 0, 0, 2, -2]
        );
        let (d, q, ps) = HALF;
        assert_eq!(rests(coordinates(d, q, ps, 1), 9), [-9, -9, -6]);
    }

    /// Two ways to the marks; and no six numbers in the ranges are against them.
    #[test]
    fn pairs_and_any_numbers_agree() {
        let mut random = Random::new(1);
        for _ in 0..200 {
            let (given, marks) = accepted(&mut random);
            let mut pairs = vec![-1; 125];
            let rests = given.rests();
            let small = rests.map(|rest| rest as i64);
            marks_by_pairs(small, given.points() as i64, &given.ranges, &mut pairs);
            assert_eq!(marks, pairs);
            let [low, high] = given.ranges;
            for _ in 0..10 {
                let inside = [0, 1, 2, 3, 4, 5].map(|k| random.between(low[k], high[k]));
                let lengths = lengths(rests, given.points(), &[inside]);
                let least = lengths.iter().map(|length| length[0]).min();
                for (length, mark) in lengths.iter().zip(&marks) {
                    let is_least = Some(length[0]) == least;
                    assert!(is_least || *mark != NEAREST);
                    assert!(!is_least || *mark != BEATEN);
                }
            }
        }
    }

    /// Narrower ranges, one end after the other, change no certain mark.
    #[test]
    fn certain_marks_stay() {
        let mut random = Random::new(1);
        let mut became_certain = 0;
        for _ in 0..100 {
            let (mut given, mut marks) = accepted(&mut random);
            for _ in 0..6 {
                let [low, high] = &mut given.ranges;
                let k = random.below(6);
                let [x, y] = [(); 2].map(|()| random.between(low[k], high[k]));
                [low[k], high[k]] = [x.min(y), x.max(y)];
                let narrower = given.marks();
                for (&old, &new) in marks.iter().zip(&narrower) {
                    assert!(old == new || old == OPEN);
                    became_certain += usize::from(old != new);
                }
                marks = narrower;
            }
        }
        assert!(became_certain > 100, "{became_certain}");
    }

    /// The image call rounds the coordinates that it has in f64: at about one point in a
    /// thousand that is another whole number.
    #[test]
    fn rounding_in_f64() {
        let mut random = Random::new(1);
        let mut differ = 0;
        for _ in 0..40_000 {
            let [d, ps] = [grids::diagonal(&mut random), grids::shift(&mut random)];
            let q = basis(&mut random);
            let points: i64 = d.iter().product();
            let point = random.between(0, points - 1);
            let address = address(d, point);
            let scaled = [0, 1, 2].map(|k| (2 * address[k] + ps[k]) as f64 / (2.0 * d[k] as f64));
            let exact = coordinates(d, q, ps, point).map(|x| rounded(x, points.into()));
            let float = q.map(|row| {
                let [x, y, z] = [0, 1, 2].map(|k| row[k] as f64 * scaled[k]);
                (x + y + z).round() as i128
            });
            differ += u64::from(exact != float);
        }
        assert!((20..100).contains(&differ), "{differ}");
    }

    /// Of a lattice that is known, and not skewed, a candidate that is nearest for certain is
    /// an image.
    #[test]
    fn nearest_candidates_are_images() {
        let mut random = Random::new(1);
        let mut tried = 0;
        while tried < 1_000 {
            let [d, ps] = [grids::few_points(&mut random), grids::shift(&mut random)];
            let q = basis(&mut random);
            let mut lattice = entries(&mut random, 1);
            (0..3).for_each(|k| lattice[k][k] += random.between(4, 8));
            let ranges = [inner_products(lattice); 2];
            let float = lattice.map(|row| row.map(|entry| entry as f64));
            let Ok(table) = bz_grid_addresses(d, q, ps, float, 2) else {
                continue;
            };
            let (det, adjugate) = (det_i(&q), adjugate(&q));
            let points: i64 = d.iter().product();
            let point = random.between(0, points - 1);
            let given = Given {
                d,
                q,
                ps,
                ranges,
                point,
            };
            let whole = given.coordinates().map(|x| rounded(x, points.into()));
            let address = address(d, point);
            let places = table.bzg2grg.iter().zip(&table.addresses);
            let images: Vec<&Vec3I> = places
                .filter(|(of, _)| **of == point)
                .map(|(_, image)| image)
                .collect();
            for (m, mark) in candidates().into_iter().zip(given.marks()) {
                let steps = [0, 1, 2].map(|k| (m[k] - whole[k]) as i64);
                let moved = |i: usize| (0..3).map(|k| adjugate[i][k] * steps[k]).sum::<i64>();
                let image = [0, 1, 2].map(|i| address[i] + d[i] * det * moved(i));
                assert!(mark != NEAREST || images.contains(&&image), "{lattice:?}");
            }
            tried += 1;
        }
    }
}
