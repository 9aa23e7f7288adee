//! The image tables of the other type, which the Rust does not make of tables.

use std::iter::repeat_n;

use phonors::common::Vec3I;
use phonors::grgrid::grid_index_from_address;

use crate::bench::{call, Call, Timed};
use crate::bz_grid_addresses::{tables, BzGridAddresses, Tables, TOLD};
use crate::function::{Function, Outputs};
use crate::inputs::images::{Images, DENSE, SPARSE, TYPES};
use crate::inputs::lent_conversions::ConvertInput;
use crate::inputs::lent_images::ImagesInput;
use crate::inputs::records::{self, Record};
use crate::limits::{ADDRESS, MAP_VALUE};
use crate::port;
use crate::refusals::{BAD_GRID_TYPE, BAD_INDEX, COULD_NOT_STAND};
use crate::tests::{addresses, fixed, length, limit, points, shift_fits};
use crate::vectors::FILE_BYTES;

/// What document 02 asks of a table that could stand.
#[derive(Clone, Copy, Debug, PartialEq, Eq, Hash)]
pub enum Clause {
    /// The counts start at 0.
    Start,
    /// None is below the one before.
    Rise,
    /// Each point has an image.
    Some,
    /// Each address folds to its point.
    Folds,
    /// The third table names that point.
    Names,
    /// No address stands twice.
    Once,
    /// The doubled mesh is that of the addresses.
    Mesh,
}

pub const CLAUSES: [Clause; 7] = [
    Clause::Start,
    Clause::Rise,
    Clause::Some,
    Clause::Folds,
    Clause::Names,
    Clause::Once,
    Clause::Mesh,
];

/// Places of the map of so many points.
pub fn map_places(bz_grid_type: i64, points: usize) -> usize {
    if bz_grid_type == SPARSE {
        9 * points + 1
    } else {
        points + 1
    }
}

pub fn other_type(bz_grid_type: i64) -> i64 {
    SPARSE + DENSE - bz_grid_type
}

/// The doubled mesh: of the images that fall to one place the last.
pub fn mesh(d: Vec3I, addresses: &[Vec3I]) -> Vec<i64> {
    let doubled = d.map(|number| 2 * number);
    let places: i64 = doubled.iter().product();
    let mut mesh = vec![places; places as usize];
    for (image, address) in (0..).zip(addresses) {
        mesh[grid_index_from_address(*address, doubled) as usize] = image;
    }
    mesh
}

/// 0, and how many there are up to each.
fn counts(lengths: impl Iterator<Item = usize>) -> Vec<i64> {
    let sums = lengths.scan(0, |sum, length| {
        *sum += length as i64;
        Some(*sum)
    });
    [0].into_iter().chain(sums).collect()
}

/// The table of the images of each point.
pub fn laid_out(bz_grid_type: i64, d: Vec3I, lists: &[Vec<Vec3I>]) -> Tables {
    let images = |from: usize, to: usize| {
        let images = (0..).zip(lists).flat_map(move |(point, list)| {
            let taken = list.iter().take(to).skip(from);
            taken.map(move |&address| (address, point))
        });
        images.collect::<Vec<(Vec3I, i64)>>()
    };
    let all = match bz_grid_type {
        SPARSE => [images(0, 1), images(1, usize::MAX)].concat(),
        _ => images(0, usize::MAX),
    };
    let (addresses, grg): (Vec<Vec3I>, Vec<i64>) = all.into_iter().unzip();
    let map = match bz_grid_type {
        SPARSE => {
            let others = lists.iter().map(|list| list.len().saturating_sub(1));
            [mesh(d, &addresses), counts(others)].concat()
        }
        _ => counts(lists.iter().map(Vec::len)),
    };
    Tables {
        addresses,
        map,
        grg,
    }
}

/// A table that can be read: its map, and the images that it counts.
pub struct Given<'a> {
    d: Vec3I,
    ps: Vec3I,
    bz_grid_type: i64,
    addresses: &'a [Vec3I],
    map: &'a [i64],
    grg: &'a [i64],
}

fn inside(holds: bool) -> Result<(), i64> {
    holds.then_some(()).ok_or(BAD_INDEX)
}

impl Given<'_> {
    /// The tests up to 14, in document 02's order.
    pub fn of(input: &ConvertInput) -> Result<Given<'_>, i64> {
        let table: Record = fixed(&input.table)?;
        let addresses = addresses(&input.addresses)?;
        let [x, y, z, u, v, w, bz_grid_type] = table;
        let (d, ps) = ([x, y, z], [u, v, w]);
        let points = points(d)?;
        limit(shift_fits(ps))?;
        if !TYPES.contains(&bz_grid_type) {
            return Err(BAD_GRID_TYPE);
        }
        let map = input.map.get(..map_places(bz_grid_type, points));
        let map = map.ok_or(BAD_INDEX)?;
        inside(map.iter().all(|value| (0..=MAP_VALUE).contains(value)))?;
        let heads = if bz_grid_type == SPARSE { points } else { 0 };
        let images = heads as i64 + map[map.len() - 1];
        inside(images <= MAP_VALUE)?;
        let images = images as usize;
        let addresses = addresses.get(..images).ok_or(BAD_INDEX)?;
        let grg = input.grg.get(..images).ok_or(BAD_INDEX)?;
        let near = |number: &i64| (-ADDRESS..=ADDRESS).contains(number);
        inside(addresses.as_flattened().iter().all(near))?;
        Ok(Given {
            d,
            ps,
            bz_grid_type,
            addresses,
            map,
            grg,
        })
    }

    fn points(&self) -> usize {
        self.d.iter().product::<i64>() as usize
    }

    /// The numbers of the map, from 0 to that of the images which the points share.
    fn counts(&self) -> &[i64] {
        &self.map[self.map.len() - 1 - self.points()..]
    }

    /// The point of each image, by counts that rise from 0.
    fn owners(&self) -> Vec<usize> {
        let heads = 0..if self.bz_grid_type == SPARSE {
            self.points()
        } else {
            0
        };
        let pairs = self.counts().windows(2).enumerate();
        let shared = pairs.flat_map(|(point, pair)| repeat_n(point, (pair[1] - pair[0]) as usize));
        heads.chain(shared).collect()
    }

    /// The clauses that it breaks. Whose an image is, and so what it should be, is only known
    /// where the counts rise from 0.
    pub fn broken(&self) -> Vec<Clause> {
        let mut broken = Vec::new();
        let mut ask = |clause, holds: bool| {
            if !holds {
                broken.push(clause);
            }
        };
        let counts = self.counts();
        ask(Clause::Start, counts[0] == 0);
        ask(Clause::Rise, counts.is_sorted());
        if counts[0] == 0 && counts.is_sorted() {
            let owners = self.owners();
            let dense = self.bz_grid_type == DENSE;
            let some = |pair: &[i64]| pair[0] < pair[1];
            ask(Clause::Some, !dense || counts.windows(2).all(some));
            let owner = |(address, &owner): (&Vec3I, &usize)| {
                grid_index_from_address(*address, self.d) == owner as i64
            };
            ask(Clause::Folds, self.addresses.iter().zip(&owners).all(owner));
            let named = |(&named, &owner): (&i64, &usize)| named == owner as i64;
            ask(Clause::Names, self.grg.iter().zip(&owners).all(named));
        }
        let mut sorted = self.addresses.to_vec();
        sorted.sort();
        ask(
            Clause::Once,
            sorted.windows(2).all(|pair| pair[0] != pair[1]),
        );
        if self.bz_grid_type == SPARSE {
            let places = self.map.len() - counts.len();
            ask(
                Clause::Mesh,
                self.map[..places] == mesh(self.d, self.addresses),
            );
        }
        broken
    }

    fn stands(&self) -> Result<(), i64> {
        self.broken()
            .is_empty()
            .then_some(())
            .ok_or(COULD_NOT_STAND)
    }

    /// The images of each point, of a table that could stand.
    pub fn lists(&self) -> Vec<Vec<Vec3I>> {
        let mut lists = vec![Vec::new(); self.points()];
        for (address, owner) in self.addresses.iter().zip(self.owners()) {
            lists[owner].push(*address);
        }
        lists
    }

    /// The record of the table that is made.
    fn record(&self) -> Record {
        records::of(self.d, self.ps, other_type(self.bz_grid_type))
    }

    fn converted(&self) -> Tables {
        laid_out(other_type(self.bz_grid_type), self.d, &self.lists())
    }
}

/// A line of the vectors: the slices table, addresses, map and grg, each as its length and its
/// items; the answer; the outputs, each as its length and its items, or its length and a sum if
/// it has over 432 places; the ten numbers told, the three lengths and the record.
pub struct ConvertBzGrid;

impl Function for ConvertBzGrid {
    const VECTORS: usize = 576;

    const ROOM: usize = FILE_BYTES;

    const HELD: &'static [usize] = BzGridAddresses::HELD;

    type Input = ConvertInput;

    fn outputs(input: &ConvertInput) -> Outputs {
        Outputs::slices(&input.places, TOLD)
    }

    fn port(input: &ConvertInput, outputs: &mut Outputs) -> i64 {
        let Outputs { slices, told } = outputs;
        let [addresses, map, grg] = &mut slices[..] else {
            panic!("three slices");
        };
        port::answer(zone::convert_bz_grid(
            &input.table,
            &input.addresses,
            &input.map,
            &input.grg,
            addresses,
            map,
            grg,
            told,
        ))
    }

    /// Of the Rust's own tables, those that it makes of the other type; of others, what
    /// document 02 says.
    fn oracle(input: &ConvertInput, outputs: &mut Outputs) -> i64 {
        outputs.answer(|slices, told| {
            length(told.len() == TOLD)?;
            let given = Given::of(input)?;
            given.stands()?;
            let converted = match &input.made {
                Some(images) => tables(&of_other_type(images))?,
                None => given.converted(),
            };
            converted.leave(given.record(), slices, told)
        })
    }
}

/// The image call of the other type.
fn of_other_type(images: &Images) -> Images {
    Images {
        bz_grid_type: other_type(images.bz_grid_type),
        ..*images
    }
}

impl Timed for ConvertBzGrid {
    const INPUTS: usize = 4;

    /// The Rust has no such call: its side makes the same tests and tables, with lists.
    fn bare(input: &ConvertInput) -> Call<'_> {
        call(input, |input, _| {
            let given = Given::of(input)?;
            given.stands()?;
            Ok::<Tables, i64>(given.converted())
        })
    }
}

/// The port's own image call of the other type, which stands where the Rust does elsewhere.
pub fn convert_over_addresses(input: &ConvertInput) -> Call<'_> {
    let images = input.made.as_ref().expect("tables of an image call");
    let images = ImagesInput::with(&of_other_type(images), input.places);
    call(images, BzGridAddresses::port)
}

#[cfg(test)]
mod tests;
#[cfg(test)]
mod wrong_ports;
