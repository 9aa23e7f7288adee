//! Lattices, by columns.

use phonors::common::{mat_i_to_d, matmul_d, matvec_di, transpose_i, MatD, MatI, Vec3I, IDENTITY};

use crate::inputs::matrices::unimodular;
use crate::limits::LATTICE_ENTRY;
use crate::random::Random;

/// Half of the square root of 3.
const HEIGHT: f64 = 0.866_025_403_784_438_6;

/// Lattices of high symmetry, where many images of a point are equally long:
/// cubic (also face-centred and body-centred), hexagonal, tetragonal.
pub const REGULAR: [MatD; 5] = [
    [[1.0, 0.0, 0.0], [0.0, 1.0, 0.0], [0.0, 0.0, 1.0]],
    [[0.0, 0.5, 0.5], [0.5, 0.0, 0.5], [0.5, 0.5, 0.0]],
    [[-0.5, 0.5, 0.5], [0.5, -0.5, 0.5], [0.5, 0.5, -0.5]],
    [[1.0, -0.5, 0.0], [0.0, HEIGHT, 0.0], [0.0, 0.0, 1.0]],
    [[1.0, 0.0, 0.0], [0.0, 1.0, 0.0], [0.0, 0.0, 1.5]],
];

/// The second of these, with its first column added to its second.
pub const SKEWED: MatD = [[0.0, 0.5, 0.5], [0.5, 0.5, 0.5], [0.5, 1.0, 0.0]];

/// Entries on which arithmetic may lose everything.
const EXTREMES: [f64; 8] = [
    0.0,
    -0.0,
    1.0,
    LATTICE_ENTRY,
    -LATTICE_ENTRY,
    1e-160,
    f64::MIN_POSITIVE,
    5e-324,
];

/// Entries of the matrix that skews a lattice, at most.
const SKEW: i64 = 1_000;

/// Factors that shear a lattice. The search range grows with their squares.
const SHEARS: [i64; 4] = [1, 2, 6, 14];

/// A lattice within the limits.
pub fn lattice(random: &mut Random) -> MatD {
    if random.one_in(20) {
        return extreme(random);
    }
    let plain = plain(random);
    let shaped = match random.below(30) {
        0 => nearly_singular(random, plain),
        1 => parallel(random, plain),
        2 => return uneven(random, plain),
        3 => skewed(random, plain),
        4..=9 => sheared(random, plain),
        _ => plain,
    };
    if random.coin() {
        scaled(random, shaped)
    } else {
        shaped
    }
}

/// A regular lattice, or one of any entries.
pub fn plain(random: &mut Random) -> MatD {
    match random.below(5) {
        0..=1 => entries(random),
        _ => random.pick(&REGULAR),
    }
}

/// The rotations that keep a lattice, in its own basis, as far as their entries are
/// of size at most 3: what the columns go to has the same products.
pub fn symmetries(lattice: &MatD) -> Vec<MatI> {
    let place = |n: i64| [n / 49 - 3, n / 7 % 7 - 3, n % 7 - 3];
    let points: Vec<Vec3I> = (0..343).map(place).collect();
    let product = |a: &Vec3I, b: &Vec3I| {
        let [a, b] = [a, b].map(|v| matvec_di(lattice, *v));
        a[0] * b[0] + a[1] * b[1] + a[2] * b[2]
    };
    let same = |a: &[Vec3I; 2], b: &[Vec3I; 2]| {
        (product(&a[0], &a[1]) - product(&b[0], &b[1])).abs() < 1e-9
    };
    let [i, j, k] = IDENTITY;
    let images = |column| {
        let points = points.iter().copied();
        points.filter(move |&point| same(&[point, point], &[column, column]))
    };
    let mut rotations = Vec::new();
    for x in images(i) {
        for y in images(j).filter(|&y| same(&[x, y], &[i, j])) {
            let kept = |z: &Vec3I| same(&[y, *z], &[j, k]) && same(&[*z, x], &[k, i]);
            rotations.extend(images(k).filter(kept).map(|z| transpose_i(&[x, y, z])));
        }
    }
    rotations
}

/// The lattice with one entry outside the limits.
pub fn damaged(random: &mut Random, mut lattice: MatD) -> MatD {
    let over = LATTICE_ENTRY.next_up();
    let wrong = [
        f64::NAN,
        f64::INFINITY,
        f64::NEG_INFINITY,
        f64::MAX,
        over,
        -over,
    ];
    lattice[random.below(3)][random.below(3)] = random.pick(&wrong);
    lattice
}

pub fn is_within(lattice: &MatD) -> bool {
    let mut entries = lattice.iter().flatten();
    entries.all(|entry| entry.is_finite() && entry.abs() <= LATTICE_ENTRY)
}

fn entries(random: &mut Random) -> MatD {
    [[(); 3]; 3].map(|row| row.map(|()| random.within_float(1.0)))
}

fn extreme(random: &mut Random) -> MatD {
    [[(); 3]; 3].map(|row| row.map(|()| random.pick(&EXTREMES)))
}

/// Multiplied by a power of two, which is exact, if the limits allow it.
fn scaled(random: &mut Random, lattice: MatD) -> MatD {
    let scale = 2f64.powi(random.between(-20, 19) as i32);
    let scaled = lattice.map(|row| row.map(|entry| entry * scale));
    if is_within(&scaled) {
        scaled
    } else {
        lattice
    }
}

/// Each column multiplied by a power of two of its own; squares may vanish.
fn uneven(random: &mut Random, mut lattice: MatD) -> MatD {
    let scales = [(); 3].map(|()| 2f64.powi(random.between(-540, 19) as i32));
    for row in &mut lattice {
        for (entry, scale) in row.iter_mut().zip(scales) {
            *entry *= scale;
        }
    }
    lattice
}

/// One column so long, up to the search range and past it, that the tolerance takes
/// in many points along the others.
pub fn stretched(random: &mut Random, mut lattice: MatD) -> MatD {
    let factor = random.between(10, 175) as f64;
    let column = random.below(3);
    for row in &mut lattice {
        row[column] *= factor;
    }
    lattice
}

/// The same points from columns that are further from the shortest.
pub fn sheared(random: &mut Random, lattice: MatD) -> MatD {
    let mut shear = IDENTITY;
    let size = random.pick(&SHEARS);
    for _ in 0..random.between(1, 3) {
        let i = random.below(2);
        shear[i][i + 1 + random.below(2 - i)] = random.within(size);
    }
    random.shuffle(&mut shear);
    matmul_d(&lattice, &mat_i_to_d(&shear))
}

/// The same points from columns that are far from the shortest.
fn skewed(random: &mut Random, lattice: MatD) -> MatD {
    matmul_d(&lattice, &mat_i_to_d(&unimodular(random, SKEW)))
}

/// One column is a multiple of another but for rounding, and maybe the third too:
/// the determinant and the columns' products are what rounding leaves.
fn parallel(random: &mut Random, mut lattice: MatD) -> MatD {
    let column = random.below(3);
    for other in 1..=random.between(1, 2) as usize {
        let factor = random.within_float(3.0);
        for row in &mut lattice {
            row[(column + other) % 3] = factor * row[column];
        }
    }
    lattice
}

/// One column is the sum of the others but for a small part of its own.
fn nearly_singular(random: &mut Random, mut lattice: MatD) -> MatD {
    let part = 2f64.powi(-random.between(10, 60) as i32);
    let column = random.below(3);
    for row in &mut lattice {
        row[column] = row[(column + 1) % 3] + row[(column + 2) % 3] + part * row[column];
    }
    lattice
}

#[cfg(test)]
mod tests {
    use phonors::common::det_d;

    use super::*;
    use crate::inputs::groups;

    #[test]
    fn lattices_of_every_kind() {
        let mut random = Random::new(1);
        let lattices: Vec<MatD> = (0..10_000).map(|_| lattice(&mut random)).collect();
        assert!(lattices.iter().all(is_within));
        let largest = |l: &MatD| l.iter().flatten().fold(0f64, |size, x| size.max(x.abs()));
        assert!(lattices.iter().any(|l| largest(l) == LATTICE_ENTRY));
        assert!(lattices.iter().any(|l| largest(l) < 1e-5));
        let flat = |l: &MatD| det_d(l).abs() / largest(l).powi(3);
        assert!(lattices.iter().any(|l| flat(l) == 0.0));
        assert!(lattices.iter().any(|l| 0.0 < flat(l) && flat(l) < 1e-12));
        assert!(lattices.iter().any(|l| flat(l) > 0.5));
    }

    #[test]
    fn orders_of_the_symmetries() {
        let orders = REGULAR.map(|lattice| symmetries(&lattice).len());
        assert_eq!(orders, [48, 48, 48, 24, 16]);
        assert_eq!(symmetries(&REGULAR[0]).len(), groups::CUBIC.len());
        assert!(symmetries(&REGULAR[0])
            .iter()
            .all(|r| groups::CUBIC.contains(r)));
        assert_eq!(symmetries(&SKEWED).len(), 48);
    }

    #[test]
    fn damage_leaves_the_limits() {
        let mut random = Random::new(1);
        for _ in 0..1000 {
            let lattice = lattice(&mut random);
            assert!(!is_within(&damaged(&mut random, lattice)));
        }
    }
}
