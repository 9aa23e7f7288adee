//! Image tables as the calls that read them are lent them: from the Rust, damaged,
//! and such that it never made.

use std::sync::{Arc, LazyLock};

use phonors::common::{MatD, MatI, Vec3I};
use phonors::transform_rotations::transform_rotations;

use crate::bz_grid_addresses::tables;
use crate::inputs::images::{self, Images, DENSE, SPARSE, TYPES};
use crate::inputs::lattices::{symmetries, REGULAR, SKEWED};
use crate::inputs::matrices::is_within;
use crate::inputs::{grids, lent};
use crate::limits::{ADDRESS, MAP_VALUE, ROTATION_ENTRY};
use crate::random::Random;

/// The tables of a grid and its diagonal. Inputs share tables that are large.
#[derive(Clone, Debug)]
pub struct LentTables {
    pub addresses: Arc<Vec<i64>>,
    pub map: Arc<Vec<i64>>,
    pub d: Vec3I,
    pub bz_grid_type: i64,
}

/// Lattices with the rotations that keep them.
static SYMMETRIC: LazyLock<Vec<(MatD, Vec<MatI>)>> = LazyLock::new(|| {
    let lattices = REGULAR.iter().chain([&SKEWED]);
    lattices
        .map(|lattice| (*lattice, symmetries(lattice)))
        .collect()
});

/// The typical grid of each type, with its 48 rotations.
pub static TYPICAL: LazyLock<([LentTables; 2], Vec<MatI>)> =
    LazyLock::new(|| (both([16; 3], SKEWED), symmetries(&SKEWED)));

impl LentTables {
    pub fn new(addresses: &[Vec3I], map: &[i64], d: Vec3I, bz_grid_type: i64) -> LentTables {
        LentTables {
            addresses: Arc::new(addresses.as_flattened().to_vec()),
            map: Arc::new(map.to_vec()),
            d,
            bz_grid_type,
        }
    }

    /// What the Rust makes, if it accepts.
    pub fn of(given: &Images) -> Option<LentTables> {
        let tables = tables(given).ok()?;
        let Images {
            d, bz_grid_type, ..
        } = *given;
        Some(LentTables::new(
            &tables.addresses,
            &tables.map,
            d,
            bz_grid_type,
        ))
    }

    /// The addresses that the table holds.
    pub fn images(&self) -> usize {
        self.addresses.len() / 3
    }

    /// An index of an address, now and then none.
    pub fn index(&self, random: &mut Random) -> i64 {
        if self.images() == 0 || random.one_in(100) {
            return self.no_index(random);
        }
        self.image(random)
    }

    /// An index of an address, if there is any.
    pub fn image(&self, random: &mut Random) -> i64 {
        match self.images() as i64 {
            0 => self.no_index(random),
            images => random.between(0, images - 1),
        }
    }

    pub fn no_index(&self, random: &mut Random) -> i64 {
        no_index(random, self.images() as i64)
    }

    /// A value of a map, a likely one or one at a limit.
    pub fn map_value(&self, random: &mut Random) -> i64 {
        let images = self.images() as i64;
        let points: i64 = self.d.iter().product();
        match random.below(4) {
            0 => random.pick(&[-1, MAP_VALUE, MAP_VALUE + 1, i64::MIN, i64::MAX]),
            1 => random.pick(&[0, points, 8 * points, images - points, images - 1, images]),
            _ => random.between(0, images),
        }
    }

    /// Changes a place, some of all places, or a length; or takes the tables for those
    /// of another grid.
    pub fn damage(&mut self, random: &mut Random) {
        let LentTables { addresses, map, .. } = self;
        match random.below(10) {
            0..=1 => {
                let chosen = random.below(addresses.len().max(1));
                self.set_address(chosen, number(random));
            }
            2..=3 => {
                let chosen = random.below(map.len().max(1));
                let value = self.map_value(random);
                self.set_map(chosen, value);
            }
            4 => {
                for place in 0..map.len() {
                    if random.one_in(3) {
                        let value = self.map_value(random);
                        self.set_map(place, value);
                    }
                }
            }
            5 => cut(random, Arc::make_mut(addresses), 3),
            6 => cut(random, Arc::make_mut(map), 1),
            7 => lent::damage(random, Arc::make_mut(addresses)),
            8 => self.bz_grid_type = SPARSE + DENSE - self.bz_grid_type,
            _ => self.d = grids::few_points(random),
        }
    }

    pub fn set_address(&mut self, place: usize, number: i64) {
        if let Some(place) = Arc::make_mut(&mut self.addresses).get_mut(place) {
            *place = number;
        }
    }

    pub fn set_map(&mut self, place: usize, value: i64) {
        if let Some(place) = Arc::make_mut(&mut self.map).get_mut(place) {
            *place = value;
        }
    }
}

/// Both tables of a grid without shift.
pub fn both(d: Vec3I, lattice: MatD) -> [LentTables; 2] {
    let of_type = |bz_grid_type| LentTables::of(&Images::new(d, lattice, bz_grid_type));
    TYPES.map(|bz_grid_type| of_type(bz_grid_type).expect("accepted"))
}

/// An index of none of so many images.
pub fn no_index(random: &mut Random, images: i64) -> i64 {
    random.pick(&[-1, images, images + 1, MAP_VALUE, i64::MIN, i64::MAX])
}

/// A number of an address, small or at its limit.
pub fn number(random: &mut Random) -> i64 {
    match random.below(3) {
        0 => random.pick(&[
            ADDRESS,
            -ADDRESS,
            ADDRESS + 1,
            -ADDRESS - 1,
            i64::MIN,
            i64::MAX,
        ]),
        _ => random.within(8),
    }
}

/// Shortens a slice by some items, so many numbers each, or empties it.
fn cut(random: &mut Random, slice: &mut Vec<i64>, item: usize) {
    let items = slice.len() / item;
    let any = random.below(items + 1);
    let left = random.pick(&[0, any, items.saturating_sub(1)]);
    slice.truncate(left * item);
}

/// Tables of any grid that the Rust accepts, and its shift.
pub fn accepted(random: &mut Random) -> (LentTables, Vec3I) {
    loop {
        let given = match random.below(2_000) {
            0 => images::large(random),
            1..=250 => images::crowded(random),
            _ => images::any(random),
        };
        if let Some(tables) = LentTables::of(&given) {
            return (tables, given.ps);
        }
    }
}

/// Tables of a grid with a rotation that keeps it, and its shift.
pub fn kept(random: &mut Random) -> (LentTables, Vec3I, MatI) {
    loop {
        let (lattice, rotations) = &SYMMETRIC[random.below(SYMMETRIC.len())];
        let rotation = random.pick(rotations);
        let mut given = Images {
            lattice: *lattice,
            ..images::any(random)
        };
        if random.coin() {
            given.d = [random.between(1, 6); 3];
        }
        let Ok(rotations) = transform_rotations(&[rotation], given.d, given.q) else {
            continue;
        };
        if !is_within(&rotations[0], ROTATION_ENTRY) {
            continue;
        }
        if let Some(tables) = LentTables::of(&given) {
            return (tables, given.ps, rotations[0]);
        }
    }
}

/// Tables of small numbers at random, most of them long enough.
pub fn made_up(random: &mut Random) -> LentTables {
    let d = [(); 3].map(|()| random.between(1, 3));
    let points = d.iter().product::<i64>() as usize;
    let bz_grid_type = random.pick(&TYPES);
    let mesh = if bz_grid_type == SPARSE {
        8 * points
    } else {
        0
    };
    let images = random.between(0, 3 * points as i64);
    let size = random.pick(&[1, 3, ADDRESS]);
    let address = |_| [(); 3].map(|()| random.within(size));
    let addresses: Vec<Vec3I> = (0..images).map(address).collect();
    let mut tables = LentTables::new(&addresses, &vec![0; mesh + points + 1], d, bz_grid_type);
    let mut before = 0;
    for place in 0..tables.map.len() {
        let value = if random.one_in(30) {
            tables.map_value(random)
        } else if place < mesh {
            let any = random.between(0, images);
            random.pick(&[any, mesh as i64])
        } else {
            before += random.between(0, 2);
            before
        };
        tables.set_map(place, value);
    }
    tables
}

#[cfg(test)]
mod tests {
    use super::*;

    #[test]
    fn tables_of_the_typical_grid() {
        let ([sparse, dense], rotations) = &*TYPICAL;
        assert_eq!(rotations.len(), 48);
        assert_eq!(sparse.images(), dense.images());
        assert_eq!([sparse.map.len(), dense.map.len()], [9 * 4_096 + 1, 4_097]);
    }

    #[test]
    fn damage_of_every_kind() {
        let mut random = Random::new(1);
        let plain = &both([2, 1, 1], REGULAR[0])[1];
        let damaged: Vec<LentTables> = (0..2_000)
            .map(|_| {
                let mut tables = plain.clone();
                tables.damage(&mut random);
                tables
            })
            .collect();
        let some = |holds: &dyn Fn(&LentTables) -> bool| damaged.iter().any(holds);
        assert!(some(&|tables| tables.addresses.is_empty()));
        assert!(some(&|tables| tables.addresses.len() == 6));
        assert!(some(&|tables| tables.addresses.len() % 3 != 0));
        assert!(some(&|tables| tables.map.is_empty()));
        assert!(some(&|tables| tables.map.len() == 2));
        assert!(some(&|tables| tables.map.contains(&(MAP_VALUE + 1))));
        assert!(some(&|tables| tables.map.contains(&-1)));
        assert!(some(&|tables| tables.addresses.contains(&(ADDRESS + 1))));
        assert!(some(&|tables| tables.addresses.contains(&-ADDRESS)));
        assert!(some(&|tables| tables.bz_grid_type == SPARSE));
        assert!(some(&|tables| tables.d != plain.d));
    }

    #[test]
    fn made_up_tables() {
        let mut random = Random::new(1);
        let tables: Vec<LentTables> = (0..200).map(|_| made_up(&mut random)).collect();
        assert!(tables.iter().any(|tables| tables.images() == 0));
        assert!(tables.iter().any(|tables| tables.images() > 20));
        assert!(tables.iter().any(|tables| tables.bz_grid_type == SPARSE));
    }
}
