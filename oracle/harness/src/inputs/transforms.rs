//! Lists of rotations with Q and a diagonal: such that belong together, so that
//! every transformed entry is whole, and such that do not.

use phonors::common::{det_i, matmul_i, transpose_i, MatI, Vec3I, IDENTITY};
use phonors::snf3x3_measured::snf3x3;
use phonors::transform_rotations::transform_rotations;

use crate::inputs::grids;
use crate::inputs::groups::{self, conjugate, CUBIC, HEXAGONAL};
use crate::inputs::lent::repeated;
use crate::inputs::matrices::{self, adjugate, diag, elementary, is_within};
use crate::inputs::tolerance;
use crate::limits::{Q_ENTRY, ROTATIONS, ROTATION_ENTRY, TRANSFORMED_ENTRY};
use crate::panics::counted;
use crate::random::Random;
use crate::tests::points;

/// The ins of a call, within the limits.
#[derive(Clone, Debug)]
pub struct Transform {
    pub rotations: Vec<MatI>,
    pub d: Vec3I,
    pub q: MatI,
}

/// Cells that large groups keep: the primitive, the face-centred and the
/// body-centred one of the cubic lattice, and one of the hexagonal.
pub const CELLS: [MatI; 4] = [
    IDENTITY,
    [[0, 1, 1], [1, 0, 1], [1, 1, 0]],
    [[-1, 1, 1], [1, -1, 1], [1, 1, -1]],
    [[2, -1, 0], [1, 1, 0], [0, 0, 1]],
];

/// Changes of basis, at most.
const STEPS: usize = 8;

/// Rotations of a list that is no group; now and then there are more.
const SHORT: usize = 6;

/// Diagonals with numbers at the limit beside small ones.
const STEEP: [Vec3I; 5] = [
    [1, 1, 256],
    [1, 256, 256],
    [2, 2, 256],
    [1, 255, 256],
    [3, 85, 255],
];

/// What belongs together and has a det Q of 1 or -1.
pub fn belonging(random: &mut Random) -> Transform {
    let mut given = match random.below(4) {
        0 => level(random),
        _ => {
            let plain = plain(random);
            rebased(random, plain)
        }
    };
    random.shuffle(&mut given.rotations);
    match random.below(40) {
        0 => given.rotations.clear(),
        1 => given.rotations = repeated(&given.rotations, random.below(ROTATIONS + 1)),
        _ => {}
    }
    given
}

/// What has a det Q of 0, or one beyond 1 and -1.
pub fn beyond(random: &mut Random) -> Transform {
    let given = match random.below(12) {
        0..=1 => any(random, singular),
        2..=3 => any(random, nonsingular),
        4..=5 => multiples(random),
        6..=8 => stretched(random),
        _ => tolerance::near(random),
    };
    rebased(random, given)
}

/// What hardly ever belongs together: any rotations, or one number beside those
/// that would.
pub fn apart(random: &mut Random) -> Transform {
    match random.below(4) {
        0 => any(random, unimodular),
        1..=2 => {
            let near = near_whole(random);
            rebased(random, near)
        }
        _ => {
            let given = belonging(random);
            nudged(random, given)
        }
    }
}

/// The whole cubic group in another basis, with what the diagonalising makes of a
/// matrix that it keeps.
pub fn cubic(random: &mut Random) -> Transform {
    loop {
        let size = random.between(8, 20);
        let a = matmul_i(&random.pick(&CELLS[..3]), &diag([size; 3]));
        if let Some(given) = kept(random, &CUBIC, a) {
            return rebased(random, given);
        }
    }
}

/// The same operations in another basis, E·R·E⁻¹ and E·Q, as far as the limits
/// allow.
fn rebased(random: &mut Random, mut given: Transform) -> Transform {
    for _ in 0..random.below(STEPS + 1) {
        let basis = elementary(random);
        let q = matmul_i(&basis.matrix, &given.q);
        let rotations = conjugate(&given.rotations, &basis);
        let small = |rotation: &MatI| is_within(rotation, TRANSFORMED_ENTRY);
        if is_within(&q, Q_ENTRY) && rotations.iter().all(small) {
            (given.rotations, given.q) = (rotations, q);
        }
    }
    given
}

/// What belongs together before any change of basis.
fn plain(random: &mut Random) -> Transform {
    if random.coin() {
        let d = diagonal(random);
        return built(random, d);
    }
    kept_grid(random)
}

/// A group on a grid that it keeps.
fn kept_grid(random: &mut Random) -> Transform {
    loop {
        let group: &[MatI] = if random.coin() { &CUBIC } else { &HEXAGONAL };
        let [x, y, z] = grids::diagonal(random);
        let numbers = random.pick(&[[x, x, x], [x, x, z], [x, y, z]]);
        let a = matmul_i(&random.pick(&CELLS), &diag(numbers));
        if let Some(given) = kept(random, group, a) {
            return given;
        }
    }
}

/// A group on a grid that it keeps, or a subgroup of it. The rotations are the grid's own
/// operations, as the Rust makes them, within the limits.
pub fn grid_group(random: &mut Random) -> Transform {
    loop {
        let plain = kept_grid(random);
        let mut given = rebased(random, plain);
        if random.coin() {
            let count = random.below(SHORT);
            let members = (0..count).map(|_| random.pick(&given.rotations));
            given.rotations = groups::closure(&members.collect::<Vec<MatI>>());
        }
        let Ok(rotations) = transform_rotations(&given.rotations, given.d, given.q) else {
            continue;
        };
        if rotations.iter().all(|r| is_within(r, ROTATION_ENTRY)) {
            return Transform { rotations, ..given };
        }
    }
}

/// The members of a group that keep the matrix A, that is A·R·A⁻¹ is whole, and the
/// matrix after steps from the left: they leave the members, and lead the walk of the
/// diagonalising to another Q.
pub fn keeping(random: &mut Random, group: &[MatI], mut a: MatI) -> (Vec<MatI>, MatI) {
    let (det, adjugate) = (det_i(&a), adjugate(&a));
    let keeps = |rotation: &&MatI| {
        let product = matmul_i(&matmul_i(&a, rotation), &adjugate);
        product.iter().flatten().all(|entry| entry % det == 0)
    };
    let rotations = group.iter().filter(keeps).copied().collect();
    for _ in 0..random.below(STEPS + 1) {
        let next = matmul_i(&elementary(random).matrix, &a);
        if is_within(&next, Q_ENTRY) {
            a = next;
        }
    }
    (rotations, a)
}

/// The members of a group that keep a matrix, with what the diagonalising makes of it,
/// if that is within the limits.
fn kept(random: &mut Random, group: &[MatI], a: MatI) -> Option<Transform> {
    let (rotations, a) = keeping(random, group, a);
    // In the version of the Rust that tells an overflow in every build.
    let answer = counted(|| snf3x3(a)).ok()?.ok()?;
    let fits = points(answer.d_diag).is_ok() && is_within(&answer.q, Q_ENTRY);
    fits.then_some(Transform {
        rotations,
        d: answer.d_diag,
        q: answer.q,
    })
}

/// Rotations with Q the identity, every entry such that times dj over dk it is whole.
fn built(random: &mut Random, d: Vec3I) -> Transform {
    let size = random.pick(&[1, 10, TRANSFORMED_ENTRY]);
    let count = 1 + random.below(SHORT);
    let rotations = (0..count).map(|_| {
        [0, 1, 2].map(|j| {
            [0, 1, 2].map(|k| {
                let step = d[k] / gcd(d[j], d[k]);
                step * random.within(size / step)
            })
        })
    });
    Transform {
        rotations: rotations.collect(),
        d,
        q: IDENTITY,
    }
}

fn gcd(a: i64, b: i64) -> i64 {
    if b == 0 {
        a
    } else {
        gcd(b, a % b)
    }
}

/// Equal sides, with which any rotation belongs to any unimodular Q.
fn level(random: &mut Random) -> Transform {
    Transform {
        d: equal_sides(random),
        ..any(random, unimodular)
    }
}

/// Up to the largest that the product allows.
fn equal_sides(random: &mut Random) -> Vec3I {
    [random.between(1, 40); 3]
}

/// Any rotations, a group or none, on any grid, with a Q of some kind.
fn any(random: &mut Random, q: fn(&mut Random) -> MatI) -> Transform {
    let size = random.pick(&[1, 10, TRANSFORMED_ENTRY]);
    let rotations = match random.below(3) {
        0 => groups::group(random, size),
        _ => {
            let mut list = groups::list(random, size);
            if !random.one_in(20) {
                list.truncate(random.below(SHORT + 1));
            }
            list
        }
    };
    Transform {
        rotations,
        d: diagonal(random),
        q: q(random),
    }
}

fn diagonal(random: &mut Random) -> Vec3I {
    if random.one_in(4) {
        return steep(random);
    }
    grids::diagonal(random)
}

fn steep(random: &mut Random) -> Vec3I {
    let mut d = random.pick(&STEEP);
    random.shuffle(&mut d);
    d
}

fn unimodular(random: &mut Random) -> MatI {
    if random.coin() {
        return triangular(random, [1; 3]);
    }
    matrices::unimodular(random, Q_ENTRY)
}

/// Triangular, but for the order of rows and columns. Of a small determinant this
/// has the inverses with the largest entries.
fn triangular(random: &mut Random, [x, y, z]: Vec3I) -> MatI {
    let [a, b, c] = [(); 3].map(|()| {
        let any = random.within(Q_ENTRY);
        random.pick(&[0, any, any, -Q_ENTRY, Q_ENTRY])
    });
    let mut q = [[x, a, b], [0, y, c], [0, 0, z]];
    random.shuffle(&mut q);
    q = transpose_i(&q);
    random.shuffle(&mut q);
    q
}

fn singular(random: &mut Random) -> MatI {
    let size = random.pick(&[3, 30, Q_ENTRY]);
    matrices::singular(random, size)
}

/// A Q of any kind with a det beyond 1 and -1.
fn nonsingular(random: &mut Random) -> MatI {
    loop {
        let size = random.pick(&[3, 30, Q_ENTRY]);
        let q = matrices::of_size(random, size);
        if det_i(&q).abs() > 1 {
            return q;
        }
    }
}

/// Multiples of the identity, or of det Q on equal sides. They are whole with any Q
/// but for rounding, which alone refuses some where entries are large.
fn multiples(random: &mut Random) -> Transform {
    let numbers = [1, 1, random.between(2, 9)];
    let q = match random.below(3) {
        0 => nonsingular(random),
        1 => triangular(random, numbers),
        _ => matrices::folded(random, diag(numbers), Q_ENTRY),
    };
    let det = det_i(&q).abs();
    let count = 1 + random.below(SHORT);
    if det <= TRANSFORMED_ENTRY && random.coin() {
        let whole = |_| {
            let any = matrices::entries(random, TRANSFORMED_ENTRY / det);
            matmul_i(&any, &diag([det; 3]))
        };
        return Transform {
            rotations: (0..count).map(whole).collect(),
            d: equal_sides(random),
            q,
        };
    }
    let whole = |_| diag([random.within(TRANSFORMED_ENTRY); 3]);
    Transform {
        rotations: (0..count).map(whole).collect(),
        d: diagonal(random),
        q,
    }
}

/// What belongs together, with each column of Q and its number of d multiplied; d
/// is left where all three factors are one. The exact fractions stay whole, and
/// what det Q divides is rounded.
fn stretched(random: &mut Random) -> Transform {
    loop {
        let Transform { rotations, d, q } = plain(random);
        let largest = 2 << random.below(9);
        let [x, y, z] = [(); 3].map(|()| random.between(1, largest));
        let (factors, d) = if random.coin() {
            ([x; 3], d)
        } else {
            ([x, y, z], [x * d[0], y * d[1], z * d[2]])
        };
        let q = matmul_i(&q, &diag(factors));
        if is_within(&q, Q_ENTRY) && points(d).is_ok() && factors != [1; 3] {
            return Transform { rotations, d, q };
        }
    }
}

/// What belongs together but for an entry that is moved by 1, which on a steep
/// diagonal leaves a fraction near a whole number.
fn near_whole(random: &mut Random) -> Transform {
    let d = steep(random);
    let mut given = built(random, d);
    let mut places: Vec<[usize; 2]> = (0..9).map(|place| [place / 3, place % 3]).collect();
    places.retain(|&[j, k]| d[j] % d[k] != 0);
    let [j, k] = random.pick(&places);
    let chosen = random.below(given.rotations.len());
    let entry = &mut given.rotations[chosen][j][k];
    *entry += if *entry > 0 { -1 } else { 1 };
    given
}

/// With an entry of a rotation or of Q moved by 1, or on another grid.
fn nudged(random: &mut Random, mut given: Transform) -> Transform {
    match random.below(3) {
        0 => given.d = diagonal(random),
        1 => given.q = matrices::nudged(random, given.q),
        _ => {
            let chosen = random.below(given.rotations.len().max(1));
            if let Some(rotation) = given.rotations.get_mut(chosen) {
                *rotation = matrices::nudged(random, *rotation);
            }
        }
    }
    given
}

/// The transformed rotations in whole numbers, if every fraction is whole. No
/// number within the limits leaves 64 bits.
#[cfg(test)]
pub fn exact(given: &Transform) -> Option<Vec<MatI>> {
    let Transform { rotations, d, q } = given;
    let (det, adjugate) = (det_i(q), adjugate(q));
    if det == 0 {
        return None;
    }
    let mut list = Vec::new();
    for rotation in rotations {
        let mut m = matmul_i(&matmul_i(&adjugate, rotation), q);
        for (j, k) in (0..9).map(|place| (place / 3, place % 3)) {
            let (above, below) = (m[j][k] * d[j], det * d[k]);
            if above % below != 0 {
                return None;
            }
            m[j][k] = above / below;
        }
        list.push(m);
    }
    Some(list)
}

#[cfg(test)]
mod tests {
    use super::*;

    fn many(kind: fn(&mut Random) -> Transform) -> Vec<Transform> {
        let mut random = Random::new(1);
        let given: Vec<Transform> = (0..2_000).map(|_| kind(&mut random)).collect();
        for Transform { rotations, d, q } in &given {
            assert!(rotations.len() <= ROTATIONS);
            assert!(rotations.iter().all(|r| is_within(r, TRANSFORMED_ENTRY)));
            assert!(points(*d).is_ok() && is_within(q, Q_ENTRY));
        }
        given
    }

    fn count(given: &[Transform], holds: impl Fn(&Transform) -> bool) -> usize {
        given.iter().filter(|&given| holds(given)).count()
    }

    #[test]
    fn what_belongs_together() {
        let given = many(belonging);
        assert!(given.iter().all(|given| det_i(&given.q).abs() == 1));
        assert!(given.iter().all(|given| exact(given).is_some()));
        // Lists from none to the longest, on grids of different sides.
        let longer = |least| count(&given, |given| given.rotations.len() >= least);
        assert!(longer(1) < given.len() && longer(24) > 200 && longer(48) > 100);
        assert!(longer(49) > 20 && longer(150) > 5);
        let uneven = |given: &Transform| given.d[0] != given.d[1] && given.rotations.len() >= 4;
        assert!(count(&given, uneven) > 200);
        assert!(count(&given, |given| given.d.contains(&256)) > 100);
        // Large numbers in Q and in the answer.
        assert!(count(&given, |given| !is_within(&given.q, 999)) > 50);
        let large = |given: &Transform| {
            let list = exact(given).unwrap_or_default();
            list.iter().any(|m| !is_within(m, 1 << 32))
        };
        assert!(count(&given, large) > 20);
    }

    #[test]
    fn determinants_beyond() {
        let given = many(beyond);
        let det = |given: &Transform| det_i(&given.q);
        assert!(given.iter().all(|given| det(given).abs() != 1));
        assert!(count(&given, |given| det(given) == 0) > 200);
        let empty = |given: &Transform| det(given) == 0 && given.rotations.is_empty();
        assert!(count(&given, empty) > 10);
        for size in [2, 1_000, 1_000_000] {
            assert!(count(&given, |given| det(given) >= size) > 50);
            assert!(count(&given, |given| det(given) <= -size) > 50);
        }
        let whole = count(&given, |given| exact(given).is_some());
        assert!(whole > 700 && whole < 1_200, "{whole}");
    }

    #[test]
    fn what_does_not_belong_together() {
        assert_eq!(count(&many(near_whole), |given| exact(given).is_some()), 0);
        let broken = count(&many(apart), |given| exact(given).is_none());
        assert!(broken > 1_400, "{broken}");
    }

    #[test]
    fn the_cubic_group() {
        let given = many(cubic);
        assert!(given.iter().all(|given| given.rotations.len() == 48));
        assert!(given.iter().all(|given| exact(given).is_some()));
        let uneven = |given: &Transform| given.d[0] != given.d[2];
        assert!(count(&given, uneven) > 1_000);
        assert!(count(&given, |given| given.q != IDENTITY) > 1_500);
    }
}
