//! What `convert_bz_grid` is lent: at the limits, random and damaged.

use crate::bz_grid_addresses::{tables, Tables};
use crate::convert_bz_grid::{map_places, other_type, Clause, CLAUSES};
use crate::function::{Input, Line};
use crate::inputs::images::{self, Images, DENSE, NO_TYPES, SPARSE, TYPES};
use crate::inputs::records::{self, Record};
use crate::inputs::standing::{break_clause, breakable, broken, Lists};
use crate::inputs::{conversions_at_limits, grids, lent, tables as lent_tables};
use crate::limits::{ADDRESS, MAP_VALUE};
use crate::random::Random;
use crate::tests::points;

/// A table with its record.
#[derive(Clone, Debug)]
pub struct ConvertInput {
    pub table: Vec<i64>,
    pub addresses: Vec<i64>,
    pub map: Vec<i64>,
    pub grg: Vec<i64>,
    /// Places of the three outputs that are lent.
    pub places: [usize; 3],
    /// The image call that left this table, if it is one's.
    pub made: Option<Images>,
}

impl ConvertInput {
    /// With outputs of the lengths that the other type wants.
    pub fn of(table: Record, tables: &Tables) -> ConvertInput {
        let [x, y, z, ..] = table;
        let images = tables.addresses.len();
        let points = points([x, y, z]).expect("within the limits");
        let map = map_places(other_type(table[6]), points);
        ConvertInput {
            table: table.to_vec(),
            addresses: tables.addresses.as_flattened().to_vec(),
            map: tables.map.clone(),
            grg: tables.grg.clone(),
            places: [3 * images, map, images],
            made: None,
        }
    }

    /// What the Rust leaves, if it accepts.
    pub fn made(images: &Images) -> Option<ConvertInput> {
        let tables = tables(images).ok()?;
        Some(ConvertInput {
            made: Some(images.clone()),
            ..ConvertInput::of(images.record(), &tables)
        })
    }

    /// The tables of the typical grid, of one type.
    pub fn sparse(random: &mut Random) -> ConvertInput {
        typical(random, SPARSE)
    }

    pub fn dense(random: &mut Random) -> ConvertInput {
        typical(random, DENSE)
    }

    /// Changes places; what is left is no image call's.
    pub fn with(&self, change: impl FnOnce(&mut ConvertInput)) -> ConvertInput {
        let mut input = ConvertInput {
            made: None,
            ..self.clone()
        };
        change(&mut input);
        input
    }

    /// Longer slices, with anything behind what is counted.
    pub fn behind(&mut self, random: &mut Random) {
        let more = |random: &mut Random, slice: &mut Vec<i64>, count| {
            for _ in 0..count {
                let number = lent_tables::number(random);
                slice.push(number);
            }
        };
        let [addresses, map, grg] = [(); 3].map(|()| random.below(4));
        more(random, &mut self.addresses, 3 * addresses);
        more(random, &mut self.map, map);
        more(random, &mut self.grg, grg);
    }
}

fn typical(random: &mut Random, bz_grid_type: i64) -> ConvertInput {
    ConvertInput::made(&images::typical(random, bz_grid_type)).expect("accepted")
}

/// A table of any grid that the Rust accepts.
fn accepted(random: &mut Random) -> ConvertInput {
    loop {
        let images = match random.below(2_000) {
            0 => images::large(random),
            1..=500 => images::crowded(random),
            _ => images::any(random),
        };
        if let Some(input) = ConvertInput::made(&images) {
            return input;
        }
    }
}

/// Makes a place of a table unreadable, or counts images that are not there.
fn unread(random: &mut Random, input: &mut ConvertInput) {
    input.made = None;
    let ConvertInput {
        addresses,
        map,
        grg,
        ..
    } = input;
    let any = |random: &mut Random, slice: &[i64]| random.below(slice.len().max(1));
    match random.below(7) {
        0 => map.truncate(any(random, map)),
        1 => {
            let place = any(random, map);
            if let Some(value) = map.get_mut(place) {
                *value = random.pick(&[-1, MAP_VALUE + 1, MAP_VALUE, i64::MIN, i64::MAX]);
            }
        }
        2 => {
            if let Some(last) = map.last_mut() {
                let more = random.pick(&[1, 2, 1 << 20, MAP_VALUE]);
                *last = last.wrapping_add(more);
            }
        }
        3 => addresses.truncate(3 * random.below((addresses.len() / 3).max(1))),
        4 => grg.truncate(any(random, grg)),
        5 => {
            let place = any(random, addresses);
            if let Some(number) = addresses.get_mut(place) {
                *number = random.pick(&[ADDRESS + 1, -ADDRESS - 1, i64::MIN, i64::MAX]);
            }
        }
        _ => map
            .iter_mut()
            .for_each(|value| *value = value.wrapping_add(1)),
    }
}

/// Any small numbers, or what the calls that read a table are lent.
fn made_up(random: &mut Random) -> ConvertInput {
    let made_up = lent_tables::made_up(random);
    let images = made_up.images();
    let points = made_up.d.iter().product::<i64>();
    ConvertInput {
        table: records::of(made_up.d, [0; 3], made_up.bz_grid_type).to_vec(),
        addresses: made_up.addresses.to_vec(),
        map: made_up.map.to_vec(),
        grg: (0..images).map(|_| random.between(0, points - 1)).collect(),
        places: [3 * images, 9 * points as usize + 1, images],
        made: None,
    }
}

/// A clause that a table of some type can break, and the type.
fn clause(random: &mut Random) -> (i64, Clause) {
    loop {
        let (bz_grid_type, clause) = (random.pick(&TYPES), random.pick(&CLAUSES));
        if breakable(bz_grid_type, clause) {
            return (bz_grid_type, clause);
        }
    }
}

/// Another record: a number outside its limits, another grid, the other type, a wrong length.
fn other_record(random: &mut Random, input: &mut ConvertInput) {
    input.made = None;
    let table = &mut input.table;
    match random.below(6) {
        0 => table[..3].copy_from_slice(&grids::damaged_diagonal(random)),
        1 => table[..3].copy_from_slice(&grids::few_points(random)),
        2 => table[3..6].copy_from_slice(&grids::damaged_shift(random)),
        3 => table[6] = other_type(table[6]),
        4 => table[6] = random.pick(&NO_TYPES),
        _ => lent::damage(random, table),
    }
}

impl Input for ConvertInput {
    fn at_limits() -> Vec<ConvertInput> {
        conversions_at_limits::of_every_kind()
    }

    fn random(random: &mut Random) -> ConvertInput {
        let mut input = match random.below(20) {
            0..=7 => accepted(random),
            8..=12 => {
                let bz_grid_type = random.pick(&TYPES);
                Lists::random(random).table(bz_grid_type)
            }
            13..=17 => {
                let (bz_grid_type, clause) = clause(random);
                broken(random, bz_grid_type, clause)
            }
            18 => {
                let (bz_grid_type, clause) = clause(random);
                let mut input = broken(random, bz_grid_type, clause);
                let other = random.pick(&CLAUSES);
                if breakable(bz_grid_type, other) {
                    break_clause(random, &mut input, other);
                }
                input
            }
            _ => made_up(random),
        };
        if random.one_in(8) {
            unread(random, &mut input);
        }
        if random.one_in(4) {
            input.behind(random);
        }
        match random.below(20) {
            0..=2 => input.places = input.places.map(|length| length + random.below(9)),
            3 => {
                let place = &mut input.places[random.below(3)];
                *place = place.saturating_sub(1);
            }
            _ => {}
        }
        if random.one_in(12) {
            other_record(random, &mut input);
        }
        if random.one_in(100) {
            lent::damage(random, &mut input.addresses);
            input.made = None;
        }
        input
    }

    /// A grid of 16 by 16 by 16 on a skewed lattice, of either type.
    fn typical(random: &mut Random) -> ConvertInput {
        let bz_grid_type = random.pick(&TYPES);
        typical(random, bz_grid_type)
    }

    /// The slices table, addresses, map and grg.
    fn write(&self, line: &mut Line) {
        line.slice(&self.table);
        line.slice(&self.addresses);
        line.slice(&self.map);
        line.slice(&self.grg);
    }
}
