//! What `neighboring_grid_points` is lent: at the limits, random and damaged.

use std::sync::Arc;

use phonors::common::Vec3I;

use crate::function::{Input, Line};
use crate::inputs::images::{DENSE, NO_TYPES, SPARSE, TYPES};
use crate::inputs::lattices::REGULAR;
use crate::inputs::lent_images::sheared;
use crate::inputs::records::{self, Change, Recorded};
use crate::inputs::tables::{self, both, LentTables, TYPICAL};
use crate::inputs::{grids, lent, numbers};
use crate::limits::{ADDRESS, MAP_VALUE, OFFSET};
use crate::random::Random;

#[derive(Clone, Debug)]
pub struct NeighboursInput {
    pub points: Vec<i64>,
    pub offsets: Vec<i64>,
    pub addresses: Arc<Vec<i64>>,
    pub map: Arc<Vec<i64>>,
    pub table: Vec<i64>,
    pub d: Vec<i64>,
    pub bz_grid_type: i64,
    /// Places of the output that is lent.
    pub places: usize,
}

/// Once in so many cases the output is long.
const LONG: usize = 8;

/// Offsets of the bench, of the 26 about a point.
const TYPICAL_OFFSETS: usize = 24;

impl NeighboursInput {
    pub fn new(points: &[i64], offsets: &[Vec3I], tables: &LentTables) -> NeighboursInput {
        NeighboursInput {
            points: points.to_vec(),
            offsets: offsets.as_flattened().to_vec(),
            addresses: tables.addresses.clone(),
            map: tables.map.clone(),
            table: records::of(tables.d, [0; 3], tables.bz_grid_type).to_vec(),
            d: tables.d.to_vec(),
            bz_grid_type: tables.bz_grid_type,
            places: points.len() * offsets.len(),
        }
    }

    /// The neighbours of the typical grid with tables of one type.
    pub fn sparse(random: &mut Random) -> NeighboursInput {
        NeighboursInput::of_typical(random, 0)
    }

    pub fn dense(random: &mut Random) -> NeighboursInput {
        NeighboursInput::of_typical(random, 1)
    }

    /// Every image in any order.
    fn of_typical(random: &mut Random, chosen: usize) -> NeighboursInput {
        let tables = &TYPICAL.0[chosen];
        let mut points: Vec<i64> = (0..tables.images() as i64).collect();
        random.shuffle(&mut points);
        let mut about = cube();
        random.shuffle(&mut about);
        NeighboursInput::new(&points, &about[..TYPICAL_OFFSETS], tables)
    }
}

impl Recorded for NeighboursInput {
    fn record(&mut self) -> &mut Vec<i64> {
        &mut self.table
    }

    fn own(&self) -> Vec<i64> {
        let shift = self.table.get(3..6).unwrap_or_default();
        records::lent(&self.d, shift, self.bz_grid_type)
    }
}

/// The 26 offsets about a point.
fn cube() -> Vec<Vec3I> {
    let offset = |n: i64| [n / 9 - 1, n / 3 % 3 - 1, n % 3 - 1];
    (0..27).map(offset).filter(|o| *o != [0; 3]).collect()
}

fn all_points(tables: &LentTables) -> Vec<i64> {
    (0..tables.images() as i64).collect()
}

/// Every image of small grids.
fn small() -> Vec<NeighboursInput> {
    let cubic = REGULAR[0];
    let grids = [
        ([1; 3], cubic),
        ([2, 1, 1], cubic),
        ([1, 2, 1], cubic),
        ([1, 1, 3], cubic),
        ([2, 2, 1], REGULAR[3]),
        ([1, 1, 2], REGULAR[1]),
        // Images that share a place of the doubled mesh.
        ([1; 3], sheared(11.0)),
        ([2, 1, 1], sheared(11.0)),
    ];
    let mut inputs = Vec::new();
    for (d, lattice) in grids {
        for tables in both(d, lattice) {
            let mut points = all_points(&tables);
            points.truncate(12);
            inputs.push(NeighboursInput::new(&points, &cube()[9..18], &tables));
            let far = [[0; 3], [2, 0, -2], [OFFSET, -OFFSET, 7], [-3, 5, 1]];
            inputs.push(NeighboursInput::new(&points, &far, &tables));
        }
    }
    inputs
}

/// Outputs of 200 places and more: about the length that the vectors list, and the
/// most that they hold.
fn long() -> Vec<NeighboursInput> {
    let offset = |n: i64| [n % 5 - 2, n % 3 - 1, n / 15];
    let mut inputs = Vec::new();
    for [points, offsets] in [[25, 8], [67, 3], [24, 18], [31, 14], [64, 64]] {
        for tables in both([3, 2, 1], REGULAR[0]) {
            let images = tables.images() as i64;
            let points: Vec<i64> = (0..points).map(|n| n % images).collect();
            let offsets: Vec<Vec3I> = (0..offsets).map(offset).collect();
            inputs.push(NeighboursInput::new(&points, &offsets, &tables));
        }
    }
    inputs
}

/// No points, no offsets, or neither, of any type and with points that are not
/// there.
fn empty() -> Vec<NeighboursInput> {
    let mut inputs = Vec::new();
    for bz_grid_type in [SPARSE, DENSE, 0, i64::MIN] {
        let tables = LentTables::new(&[], &[], [1; 3], bz_grid_type);
        inputs.push(NeighboursInput::new(&[], &[], &tables));
        inputs.push(NeighboursInput::new(&[], &[[0; 3]], &tables));
        inputs.push(NeighboursInput::new(&[-1, 5], &[], &tables));
        inputs.push(NeighboursInput::new(&[0], &[[0; 3]], &tables));
        let none = NeighboursInput::new(&[], &[], &tables);
        inputs.push(NeighboursInput {
            places: 1,
            ..none.clone()
        });
        inputs.push(NeighboursInput {
            d: vec![0; 3],
            ..none.clone()
        });
        inputs.push(NeighboursInput {
            d: vec![1; 2],
            ..none
        });
        let over = [[0, 0, OFFSET + 1]];
        inputs.push(NeighboursInput::new(&[], &over, &tables));
    }
    inputs
}

/// Values of the tables at their limits and past them, where the walk reads them
/// and where it does not.
fn values() -> Vec<NeighboursInput> {
    let mut inputs = Vec::new();
    let addresses = [[0; 3], [1, 0, 0]];
    for value in [
        0,
        1,
        2,
        8,
        MAP_VALUE - 1,
        MAP_VALUE,
        MAP_VALUE + 1,
        -1,
        i64::MIN,
        i64::MAX,
    ] {
        for place in 0..3 {
            let mut dense = [MAP_VALUE - 1, MAP_VALUE, 0];
            dense[place] = value;
            let mut sparse = [8; 10];
            sparse[place] = value;
            let mut push = |map: &[i64], bz_grid_type| {
                let tables = LentTables::new(&addresses, map, [1; 3], bz_grid_type);
                inputs.push(NeighboursInput::new(&[1], &[[0; 3]], &tables));
            };
            push(&dense, DENSE);
            push(&sparse, SPARSE);
        }
    }
    // Of a point, and of an image on the walk or past its end.
    for number in [
        ADDRESS,
        -ADDRESS,
        ADDRESS + 1,
        -ADDRESS - 1,
        i64::MIN,
        i64::MAX,
    ] {
        for place in 0..9 {
            let mut addresses = [[3; 3], [1; 3], [2; 3]];
            addresses[place / 3][place % 3] = number;
            for (map, bz_grid_type) in [
                (vec![0, 3], DENSE),
                (vec![0, 1], DENSE),
                (vec![8; 10], SPARSE),
            ] {
                let tables = LentTables::new(&addresses, &map, [1; 3], bz_grid_type);
                inputs.push(NeighboursInput::new(
                    &[0],
                    &[[-OFFSET; 3], [-1; 3]],
                    &tables,
                ));
            }
        }
    }
    inputs
}

/// Points that are not there, and tables that are too short for the walk.
fn indices() -> Vec<NeighboursInput> {
    let mut inputs = Vec::new();
    let offsets = [[0; 3], [1, 0, 0]];
    for tables in both([2, 1, 1], REGULAR[0]) {
        let images = tables.images() as i64;
        for point in [-1, images, MAP_VALUE, i64::MIN, i64::MAX] {
            for points in [vec![point], vec![0, 1, point], vec![point, 0, -2]] {
                inputs.push(NeighboursInput::new(&points, &offsets, &tables));
            }
        }
        for left in 0..images as usize {
            let mut tables = tables.clone();
            Arc::make_mut(&mut tables.addresses).truncate(3 * left);
            inputs.push(NeighboursInput::new(&[0, 1], &offsets, &tables));
            inputs.push(NeighboursInput::new(&[0], &offsets, &tables));
        }
        for left in 0..tables.map.len() {
            let mut tables = tables.clone();
            Arc::make_mut(&mut tables.map).truncate(left);
            inputs.push(NeighboursInput::new(&[0, 1], &offsets, &tables));
        }
    }
    inputs
}

/// Numbers past their limits and lengths that are wrong, with what would be refused
/// after them.
fn refused() -> Vec<NeighboursInput> {
    let tables = LentTables::new(&[[0; 3]], &[0, 1], [1; 3], DENSE);
    let plain = NeighboursInput::new(&[0, 0], &[[0; 3], [1; 3]], &tables);
    let mut inputs = Vec::new();
    for place in 0..6 {
        for number in [OFFSET, -OFFSET, OFFSET + 1, -OFFSET - 1, i64::MIN, i64::MAX] {
            let mut input = plain.clone();
            input.offsets[place] = number;
            inputs.push(input);
        }
    }
    for d in grids::AT_LIMITS {
        inputs.push(NeighboursInput {
            d: d.to_vec(),
            ..plain.clone()
        });
    }
    for bz_grid_type in NO_TYPES {
        for points in [vec![0, 0], vec![-1, 0]] {
            inputs.push(NeighboursInput {
                bz_grid_type,
                points,
                ..plain.clone()
            });
        }
    }
    let outside = NeighboursInput {
        points: vec![-1, -1],
        d: vec![0; 3],
        bz_grid_type: 3,
        ..plain.clone()
    };
    inputs.push(outside.clone());
    for input in [&plain, &outside] {
        for places in [0, 2, 3, 5, 8] {
            inputs.push(NeighboursInput {
                places,
                ..input.clone()
            });
        }
        for length in [1, 2, 4, 5, 7] {
            inputs.push(NeighboursInput {
                offsets: vec![OFFSET + 1; length],
                places: 2 * (length / 3),
                ..input.clone()
            });
            inputs.push(NeighboursInput {
                addresses: Arc::new(vec![0; length]),
                ..input.clone()
            });
            inputs.push(NeighboursInput {
                d: vec![1; length],
                ..input.clone()
            });
        }
    }
    inputs
}

fn any_offsets(random: &mut Random, count: usize) -> Vec<Vec3I> {
    let offset = |_| {
        let size = random.pick(&[1, 1, 3, 10, OFFSET]);
        [(); 3].map(|()| random.within(size))
    };
    (0..count).map(offset).collect()
}

/// Points and offsets that fill 200 to 12,000 places. A single point that is not there
/// would refuse the call, so most have none.
fn long_lists(random: &mut Random, tables: &LentTables) -> (Vec<i64>, Vec<Vec3I>) {
    let count = 20 + random.below(281);
    let mut points: Vec<i64> = (0..count).map(|_| tables.image(random)).collect();
    if random.one_in(10) {
        points[random.below(count)] = tables.no_index(random);
    }
    let offsets = 10 + random.below(31);
    (points, any_offsets(random, offsets))
}

/// Another record, and what is refused before it or after it. Without points or offsets it
/// is not compared, but its length is tested.
fn other_records() -> Vec<NeighboursInput> {
    let changes: [Change<NeighboursInput>; 11] = [
        |input| input.d[0] = 0,
        |input| input.offsets[0] = OFFSET + 1,
        |input| input.bz_grid_type = 3,
        |input| (input.bz_grid_type, input.table[6]) = (0, 0),
        |input| input.points[0] = -1,
        |input| input.addresses = Arc::new(vec![]),
        |input| input.map = Arc::new(vec![]),
        |input| (input.points, input.places) = (vec![], 0),
        |input| (input.offsets, input.places) = (vec![], 0),
        |input| (input.points, input.places, input.d[2]) = (vec![], 0, 257),
        |input| (input.points, input.places, input.table) = (vec![], 0, vec![1; 6]),
    ];
    let of = |tables| {
        let mut plain = NeighboursInput::new(&[1], &[[0, 1, 0]], tables);
        plain.table[3..6].copy_from_slice(&[1, 0, 1]);
        records::at_limits(&plain, &changes)
    };
    both([1, 2, 1], REGULAR[0]).iter().flat_map(of).collect()
}

impl Input for NeighboursInput {
    fn at_limits() -> Vec<NeighboursInput> {
        let kinds = [small(), long(), empty(), values(), indices(), refused()];
        let agreeing = kinds.into_iter().flatten().map(Recorded::agreeing);
        agreeing.chain(other_records()).collect()
    }

    fn random(random: &mut Random) -> NeighboursInput {
        let (mut tables, ps) = match random.below(8) {
            0 => (tables::made_up(random), [0; 3]),
            _ => tables::accepted(random),
        };
        if random.one_in(8) {
            tables.damage(random);
        }
        let (points, offsets) = if random.one_in(LONG) {
            long_lists(random, &tables)
        } else {
            let [points, offsets] = [24, 8].map(|most| {
                let least = usize::from(!random.one_in(40));
                let more = random.pick(&[1, 2, most]);
                least + random.below(more)
            });
            let points = (0..points).map(|_| tables.index(random)).collect();
            (points, any_offsets(random, offsets))
        };
        let mut input = NeighboursInput::new(&points, &offsets, &tables);
        match random.below(100) {
            0 => input.bz_grid_type = random.pick(&NO_TYPES),
            1 => input.d = grids::damaged_diagonal(random).to_vec(),
            2 if !input.offsets.is_empty() => {
                let chosen = random.below(input.offsets.len());
                input.offsets[chosen] = numbers::outside(random, OFFSET);
            }
            3 => lent::damage(random, &mut input.offsets),
            4 => lent::damage(random, &mut input.d),
            5 => input.places = random.pick(&[0, input.places + 1, 2 * input.places]),
            _ => {}
        }
        input.table[3..6].copy_from_slice(&ps);
        input.agreeing()
    }

    fn other_record(&mut self, random: &mut Random) {
        records::change(random, &mut self.table);
    }

    /// Every image of a grid of 16 by 16 by 16, with tables of either type.
    fn typical(random: &mut Random) -> NeighboursInput {
        let chosen = random.below(TYPES.len());
        NeighboursInput::of_typical(random, chosen)
    }

    /// The slices points, offsets, addresses, map, table and d; the type.
    fn write(&self, line: &mut Line) {
        line.slice(&self.points);
        line.slice(&self.offsets);
        line.slice(&self.addresses);
        line.slice(&self.map);
        line.slice(&self.table);
        line.slice(&self.d);
        line.number(self.bz_grid_type);
    }
}
