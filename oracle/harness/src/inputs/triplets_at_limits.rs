//! What `bz_triplets_at_q` is lent at the limits and on both sides of them.

use std::sync::Arc;

use phonors::common::{IDENTITY, INVERSION};
use phonors::grgrid::grid_index_from_address;

use crate::inputs::images::{Images, NO_TYPES, SPARSE, TYPES};
use crate::inputs::lattices::REGULAR;
use crate::inputs::lent_images::sheared;
use crate::inputs::lent_triplets::{classes, TripletsInput};
use crate::inputs::records::{self, Change, Recorded};
use crate::inputs::tables::{self, LentTables};
use crate::limits::{ADDRESS, LATTICE_ENTRY, MAP_VALUE, Q_ENTRY};
use crate::tests::points;

pub fn all() -> Vec<TripletsInput> {
    let kinds = [small(), values(), moved(), refused()];
    let agreeing = kinds.into_iter().flatten().map(Recorded::agreeing);
    agreeing.chain(other_records()).collect()
}

/// Up to three points, or images, of small grids, one by one and under the inversion with swapping.
fn small() -> Vec<TripletsInput> {
    let cubic = REGULAR[0];
    let grids = [
        ([1; 3], cubic),
        ([2, 1, 1], cubic),
        ([1, 1, 3], cubic),
        ([2, 2, 1], REGULAR[3]),
        ([1, 2, 2], REGULAR[2]),
        ([1, 2, 1], sheared(5.0)),
    ];
    let mut inputs = Vec::new();
    for bz_grid_type in TYPES {
        for (d, lattice) in grids {
            let given = Images::new(d, lattice, bz_grid_type);
            let tables = LentTables::of(&given).expect("accepted");
            let last = match bz_grid_type {
                SPARSE => points(d).expect("few points"),
                _ => tables.images(),
            };
            for image in 0..last.min(3) {
                let address = tables.addresses.as_chunks().0[image];
                let point = grid_index_from_address(address, d);
                for (list, flags) in [(vec![], [false; 2]), (vec![INVERSION], [true; 2])] {
                    let class_map = classes(point, d, &list, flags);
                    inputs.push(TripletsInput::new(
                        image as i64,
                        &tables,
                        &class_map,
                        IDENTITY,
                        lattice,
                    ));
                }
            }
        }
    }
    inputs
}

/// A grid of two points, in either type, with every number of its tables changed in
/// turn: to a limit, past it, and to a number that empties a range or stretches it.
fn values() -> Vec<TripletsInput> {
    let d = [2, 1, 1];
    let mut inputs = Vec::new();
    for tables in tables::both(d, REGULAR[0]) {
        let plain = TripletsInput::new(1, &tables, &[0, 1], IDENTITY, REGULAR[0]);
        let mesh = if tables.bz_grid_type == SPARSE { 16 } else { 0 };
        for place in mesh..tables.map.len() {
            for value in [0, 2, 5, -1, MAP_VALUE, MAP_VALUE + 1] {
                let mut input = plain.clone();
                Arc::make_mut(&mut input.map)[place] = value;
                inputs.push(input);
            }
        }
        for place in 0..tables.addresses.len() {
            for size in [ADDRESS, ADDRESS + 1] {
                let mut input = plain.clone();
                Arc::make_mut(&mut input.addresses)[place] = [size, -size][place % 2];
                inputs.push(input);
            }
        }
        // An empty range after one of 2^40 images.
        let mut input = plain.clone();
        let map = Arc::make_mut(&mut input.map);
        map[mesh..].copy_from_slice(&[5, 0, MAP_VALUE]);
        inputs.push(input);
        for class_map in [vec![], vec![0], vec![1, 1], vec![0, 1, 2], vec![0; 9]] {
            inputs.push(TripletsInput::new(
                1, &tables, &class_map, IDENTITY, REGULAR[0],
            ));
        }
        for q0 in [-1, 0, 2, 3, i64::MIN, i64::MAX] {
            inputs.push(TripletsInput {
                q0,
                ..plain.clone()
            });
        }
        for length in [0, 3, 6] {
            let mut input = plain.clone();
            Arc::make_mut(&mut input.addresses).truncate(length);
            inputs.push(input);
        }
        for length in [0, mesh, mesh + 1, mesh + 2] {
            let mut input = plain.clone();
            Arc::make_mut(&mut input.map).truncate(length);
            inputs.push(input);
        }
    }
    inputs
}

/// Tables with one image moved off its point, so that sums below 0 leave a remainder.
fn moved() -> Vec<TripletsInput> {
    let d = [3, 1, 1];
    let mut inputs = Vec::new();
    for tables in tables::both(d, REGULAR[0]) {
        for (image, by) in [-1, -2, -4].into_iter().enumerate() {
            let mut tables = tables.clone();
            let number = tables.addresses[3 * image];
            tables.set_address(3 * image, number + by);
            let classes = [0, 1, 2];
            inputs.push(TripletsInput::new(
                1, &tables, &classes, IDENTITY, REGULAR[0],
            ));
        }
    }
    inputs
}

/// Refused by 13, 3 or 9, also where later tests would refuse too.
fn refused() -> Vec<TripletsInput> {
    let [sparse, dense] = tables::both([2, 1, 1], REGULAR[0]);
    let with = |tables: &LentTables, change: &dyn Fn(&mut TripletsInput)| {
        let mut input = TripletsInput::new(2, tables, &[0, 1], IDENTITY, REGULAR[0]);
        change(&mut input);
        input
    };
    let mut inputs = Vec::new();
    for tables in [&sparse, &dense] {
        for d in [
            [0, 1, 1],
            [2, 1, 257],
            [256, 256, 2],
            [i64::MIN, 1, i64::MAX],
        ] {
            inputs.push(with(tables, &|input| input.d = d.to_vec()));
        }
        let first = tables.bz_grid_type as usize - 1;
        for place in (first..9).step_by(2) {
            inputs.push(with(tables, &|input| input.q[place] = Q_ENTRY + 1));
            let wrong = [f64::NAN, f64::INFINITY, -LATTICE_ENTRY.next_up()][place % 3];
            inputs.push(with(tables, &|input| input.lattice[place] = wrong));
        }
        for bz_grid_type in NO_TYPES {
            for q0 in [0, 2] {
                inputs.push(with(tables, &|input| {
                    (input.bz_grid_type, input.q0) = (bz_grid_type, q0);
                    input.q[0] = -Q_ENTRY;
                }));
            }
        }
        for length in [0, 2, 4] {
            inputs.push(with(tables, &|input| input.d.resize(length, 0)));
        }
        for length in [0, 8, 10] {
            inputs.push(with(tables, &|input| input.q.resize(length, Q_ENTRY + 1)));
            inputs.push(with(tables, &|input| {
                input.lattice.resize(length, f64::NAN)
            }));
        }
        inputs.push(with(tables, &|input| {
            Arc::make_mut(&mut input.addresses).push(0)
        }));
        for places in [
            [0, 2, 2, 6],
            [5, 2, 2, 6],
            [7, 2, 2, 6],
            [6, 1, 2, 6],
            [6, 3, 2, 6],
            [6, 2, 0, 6],
            [6, 2, 3, 6],
            [6, 2, 2, 0],
            [6, 2, 2, 5],
            [6, 2, 2, 7],
        ] {
            inputs.push(with(tables, &|input| {
                input.places = places;
                input.d[0] = 0;
            }));
        }
    }
    inputs
}

/// Another record, and what is refused before it or after it: also before the address at
/// q0 is read, and without classes.
fn other_records() -> Vec<TripletsInput> {
    let changes: [Change<TripletsInput>; 10] = [
        |input| input.d[0] = 0,
        |input| input.q[1] = Q_ENTRY + 1,
        |input| input.lattice[2] = f64::NAN,
        |input| input.q0 = 3,
        |input| input.bz_grid_type = 3,
        |input| (input.bz_grid_type, input.table[6]) = (0, 0),
        |input| input.addresses = Arc::new(vec![]),
        |input| input.map = Arc::new(vec![]),
        |input| (input.class_map, input.places) = (Arc::new(vec![]), [0; 4]),
        |input| {
            (input.class_map, input.places) = (Arc::new(vec![]), [0; 4]);
            input.addresses = Arc::new(vec![]);
        },
    ];
    let of = |tables| {
        let mut plain = TripletsInput::new(1, tables, &[0, 0], IDENTITY, REGULAR[0]);
        plain.table[3..6].copy_from_slice(&[1, 0, 1]);
        records::at_limits(&plain, &changes)
    };
    let tables = tables::both([1, 2, 1], REGULAR[0]);
    tables.iter().flat_map(of).collect()
}
