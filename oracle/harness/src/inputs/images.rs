//! Grids with a lattice, whose image tables are built.

use phonors::common::{MatD, MatI, Vec3I, IDENTITY};

use crate::bz_grid_addresses::tables;
use crate::inputs::lattices::{self, REGULAR, SKEWED};
use crate::inputs::records::{self, Record};
use crate::inputs::{grids, matrices};
use crate::limits::Q_ENTRY;
use crate::random::Random;

/// The types of the tables.
pub const SPARSE: i64 = 1;
pub const DENSE: i64 = 2;
pub const TYPES: [i64; 2] = [SPARSE, DENSE];

/// Numbers that are no type.
pub const NO_TYPES: [i64; 5] = [0, 3, -1, i64::MIN, i64::MAX];

/// The ins of a call.
#[derive(Clone, Debug)]
pub struct Images {
    pub d: Vec3I,
    pub q: MatI,
    pub ps: Vec3I,
    pub lattice: MatD,
    pub bz_grid_type: i64,
}

impl Images {
    /// Without shift, on a lattice in its own basis.
    pub fn new(d: Vec3I, lattice: MatD, bz_grid_type: i64) -> Images {
        Images {
            d,
            q: IDENTITY,
            ps: [0; 3],
            lattice,
            bz_grid_type,
        }
    }

    /// The record of its table.
    pub fn record(&self) -> Record {
        records::of(self.d, self.ps, self.bz_grid_type)
    }
}

/// Within the limits, on a lattice of any kind. The search may refuse it.
pub fn any(random: &mut Random) -> Images {
    Images {
        q: basis(random),
        ps: shift(random),
        ..Images::new(
            grids::few_points(random),
            lattices::lattice(random),
            random.pick(&TYPES),
        )
    }
}

/// Of few points with many images of each, so that several share a place of the
/// doubled mesh.
pub fn crowded(random: &mut Random) -> Images {
    let plain = lattices::plain(random);
    let shape = random.pick(&[lattices::sheared, lattices::stretched]);
    Images {
        d: [(); 3].map(|()| random.between(1, 2)),
        lattice: shape(random, plain),
        ..any(random)
    }
}

/// Of few points on a lattice at which an image, or the refusal, hangs on the last
/// bit of an entry: two lattices with different tables are brought together.
pub fn at_edge(random: &mut Random) -> Images {
    loop {
        let given = if random.coin() {
            crowded(random)
        } else {
            Images {
                d: [(); 3].map(|()| random.between(1, 5)),
                ..any(random)
            }
        };
        let (row, column) = (random.below(3), random.below(3));
        let with = |entry| {
            let mut given = given.clone();
            given.lattice[row][column] = entry;
            given
        };
        let mut low = given.lattice[row][column];
        let mut high = random.pick(&[0.0, 0.9, 1.1, 3.0, -1.0]) * given.lattice[column][row];
        let tables_low = tables(&with(low));
        if tables(&with(high)) == tables_low {
            continue;
        }
        loop {
            let middle = low + (high - low) / 2.0;
            if [low, high].contains(&middle) {
                return with(random.pick(&[low, high]));
            }
            if tables(&with(middle)) == tables_low {
                low = middle;
            } else {
                high = middle;
            }
        }
    }
}

/// Of many points, on a lattice whose search is short.
pub fn large(random: &mut Random) -> Images {
    Images {
        q: basis(random),
        ps: shift(random),
        ..Images::new(
            grids::many_points(random),
            random.pick(&REGULAR),
            random.pick(&TYPES),
        )
    }
}

/// A grid of 16 by 16 by 16 on the face-centred lattice, from columns that are not
/// the shortest.
pub fn typical(random: &mut Random, bz_grid_type: i64) -> Images {
    Images {
        ps: grids::shift(random),
        ..Images::new([16; 3], SKEWED, bz_grid_type)
    }
}

/// A Q of determinant 1 or -1.
pub fn basis(random: &mut Random) -> MatI {
    let size = random.pick(&[1, 3, 30, Q_ENTRY]);
    matrices::unimodular(random, size)
}

fn shift(random: &mut Random) -> Vec3I {
    if random.coin() {
        return [0; 3];
    }
    grids::shift(random)
}

#[cfg(test)]
mod tests {
    use super::*;

    /// An entry beside has other tables.
    #[test]
    fn edges() {
        let mut random = Random::new(1);
        for _ in 0..100 {
            let given = at_edge(&mut random);
            let expected = tables(&given);
            let beside = |place: usize, step: fn(f64) -> f64| {
                let mut given = given.clone();
                let entry = &mut given.lattice[place / 3][place % 3];
                *entry = step(*entry);
                tables(&given) != expected
            };
            assert!(
                (0..9).any(|place| beside(place, f64::next_up) || beside(place, f64::next_down))
            );
        }
    }

    #[test]
    fn grids_of_every_size() {
        let mut random = Random::new(1);
        let points = |given: &Images| given.d.iter().product::<i64>();
        let many: Vec<Images> = (0..100).map(|_| large(&mut random)).collect();
        assert!(many.iter().any(|given| points(given) == 65_536));
        let few: Vec<Images> = (0..1_000).map(|_| any(&mut random)).collect();
        assert!(few.iter().filter(|given| points(given) == 1).count() > 10);
        assert!(few.iter().any(|given| given.ps == [0; 3]));
        assert!(few.iter().any(|given| given.ps == [1; 3]));
        assert!(few.iter().any(|given| !matrices::is_within(&given.q, 500)));
    }
}
