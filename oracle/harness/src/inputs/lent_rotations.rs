//! What `rotate_bz_grid_index` is lent: at the limits, random and damaged.

use std::sync::Arc;

use phonors::common::{matvec_ii, MatI, Vec3I, IDENTITY, INVERSION};
use phonors::grgrid::grid_index_from_address;

use crate::function::{Input, Line};
use crate::inputs::images::{DENSE, NO_TYPES, SPARSE, TYPES};
use crate::inputs::lattices::REGULAR;
use crate::inputs::lent_images::sheared;
use crate::inputs::lent_transforms::EXCHANGE;
use crate::inputs::matrices::{self, diag};
use crate::inputs::records::{self, Change, Recorded};
use crate::inputs::tables::{self, both, LentTables, TYPICAL};
use crate::inputs::{grids, lent};
use crate::limits::{ADDRESS, MAP_VALUE, ROTATION_ENTRY};
use crate::random::Random;
use crate::rotate_bz_grid_index::address_fits;

#[derive(Clone, Debug)]
pub struct RotateInput {
    pub index: i64,
    pub rotation: Vec<i64>,
    pub addresses: Arc<Vec<i64>>,
    pub map: Arc<Vec<i64>>,
    pub table: Vec<i64>,
    pub d: Vec<i64>,
    pub ps: Vec<i64>,
    pub bz_grid_type: i64,
}

impl RotateInput {
    pub fn new(index: i64, rotation: MatI, tables: &LentTables, ps: Vec3I) -> RotateInput {
        RotateInput {
            index,
            rotation: rotation.as_flattened().to_vec(),
            addresses: tables.addresses.clone(),
            map: tables.map.clone(),
            table: records::of(tables.d, ps, tables.bz_grid_type).to_vec(),
            d: tables.d.to_vec(),
            ps: ps.to_vec(),
            bz_grid_type: tables.bz_grid_type,
        }
    }

    /// A rotation of the typical grid with tables of one type.
    pub fn sparse(random: &mut Random) -> RotateInput {
        RotateInput::of_typical(random, 0)
    }

    pub fn dense(random: &mut Random) -> RotateInput {
        RotateInput::of_typical(random, 1)
    }

    fn of_typical(random: &mut Random, chosen: usize) -> RotateInput {
        let (tables, rotations) = &*TYPICAL;
        let tables = &tables[chosen];
        let index = random.below(tables.images()) as i64;
        RotateInput::new(index, random.pick(rotations), tables, [0; 3])
    }

    /// The addresses that the table holds.
    pub fn images(&self) -> usize {
        self.addresses.len() / 3
    }

    /// Those at the limits whose record agrees.
    pub fn agreeing_at_limits() -> Vec<RotateInput> {
        let kinds = [small(), values(), indices(), refused()];
        kinds
            .into_iter()
            .flatten()
            .map(Recorded::agreeing)
            .collect()
    }

    /// What stands in a line beside the index.
    pub fn write_given(&self, line: &mut Line) {
        line.slice(&self.rotation);
        line.slice(&self.addresses);
        line.slice(&self.map);
        line.slice(&self.table);
        line.slice(&self.d);
        line.slice(&self.ps);
        line.number(self.bz_grid_type);
    }
}

impl Recorded for RotateInput {
    fn record(&mut self) -> &mut Vec<i64> {
        &mut self.table
    }

    fn own(&self) -> Vec<i64> {
        records::lent(&self.d, &self.ps, self.bz_grid_type)
    }
}

/// A case before it is lent.
struct Case {
    tables: LentTables,
    ps: Vec3I,
    rotation: MatI,
    index: i64,
}

impl Case {
    fn random(random: &mut Random) -> Case {
        let (tables, ps, rotation) = match random.below(10) {
            0..=4 => tables::kept(random),
            5 => (
                tables::made_up(random),
                grids::shift(random),
                any_rotation(random),
            ),
            _ => {
                let (tables, ps) = tables::accepted(random);
                (tables, ps, any_rotation(random))
            }
        };
        let index = tables.index(random);
        Case {
            tables,
            ps,
            rotation,
            index,
        }
    }

    /// Puts other numbers where the call reads.
    fn damage(&mut self, random: &mut Random) {
        let index = usize::try_from(self.index).ok();
        let (addresses, _) = self.tables.addresses.as_chunks();
        let Some(&address) = index.and_then(|index| addresses.get(index)) else {
            return;
        };
        if !address_fits(&address) {
            return;
        }
        let goal = rotated(address, self.rotation, self.ps);
        let point = grid_index_from_address(goal, self.tables.d) as usize;
        let points = self.tables.d.iter().product::<i64>() as usize;
        match random.below(4) {
            0 => {
                let chosen = random.pick(&[point, index.unwrap_or(0)]);
                let number = tables::number(random);
                self.tables
                    .set_address(3 * chosen + random.below(3), number);
            }
            1 => {
                let last = self.tables.addresses.len() - 3;
                for (axis, number) in goal.into_iter().enumerate() {
                    self.tables.set_address(last + axis, number);
                }
            }
            _ => {
                let base = if self.tables.bz_grid_type == SPARSE {
                    8 * points
                } else {
                    0
                };
                let chosen = random.pick(&[point, base + point, base + point + 1]);
                let value = self.tables.map_value(random);
                self.tables.set_map(chosen, value);
            }
        }
    }
}

/// The address that an address within the limits goes to.
fn rotated(address: Vec3I, rotation: MatI, ps: Vec3I) -> Vec3I {
    let double = [0, 1, 2].map(|k| 2 * address[k] + ps[k]);
    let double = matvec_ii(&rotation, double);
    [0, 1, 2].map(|k| (double[k] - ps[k]) / 2)
}

fn any_rotation(random: &mut Random) -> MatI {
    let size = random.pick(&[1, 1, 2, 10, ROTATION_ENTRY]);
    matrices::entries(random, size)
}

/// Every image of small grids under some rotations, such that keep the grid and
/// such that do not.
fn small() -> Vec<RotateInput> {
    let cubic = REGULAR[0];
    let mut inputs = Vec::new();
    // The answer 8·N: the map of the doubled mesh is empty at the plain index.
    for tables in both([1, 2, 1], cubic) {
        for factor in [1, -1, 3, 2, -ROTATION_ENTRY] {
            for index in 0..3 {
                inputs.push(RotateInput::new(
                    index,
                    diag([1, factor, 1]),
                    &tables,
                    [0; 3],
                ));
            }
        }
    }
    let grids = [
        ([1; 3], cubic),
        ([2, 1, 1], cubic),
        ([2, 2, 1], cubic),
        ([1, 1, 2], REGULAR[1]),
        // Images that share a place of the doubled mesh.
        ([1; 3], sheared(11.0)),
        ([2, 1, 1], sheared(11.0)),
    ];
    let rotations = [
        IDENTITY,
        INVERSION,
        EXCHANGE,
        diag([3, 1, 1]),
        [[0, 0, 0]; 3],
        [[1, -1, 0], [1, 0, 2], [0, 1, 1]],
    ];
    for (d, lattice) in grids {
        for tables in both(d, lattice) {
            for (k, rotation) in rotations.into_iter().enumerate() {
                let last = tables.images() as i64 - 1;
                let (index, ps) = [(last, [0; 3]), (last / 2, [1, 0, 1])][k % 2];
                inputs.push(RotateInput::new(index, rotation, &tables, ps));
            }
        }
    }
    inputs
}

/// Values of the tables at their limits and past them, where the walk reads them
/// and where it does not.
fn values() -> Vec<RotateInput> {
    let mut inputs = Vec::new();
    let mut push = |index, rotation, addresses: &[Vec3I], map: &[i64], bz_grid_type, ps| {
        let tables = LentTables::new(addresses, map, [1; 3], bz_grid_type);
        inputs.push(RotateInput::new(index, rotation, &tables, ps));
    };
    for value in [0, 1, 2, MAP_VALUE, MAP_VALUE + 1, -1, i64::MIN, i64::MAX] {
        for place in 0..4 {
            // Type 2: the ends of the image range of point 0, then places not read.
            let mut dense = [1; 4];
            dense[place] = value;
            // Type 1: where a fallback is read, the two counts, a place not read.
            let mut sparse = [7; 11];
            sparse[8..].fill(1);
            sparse[[0, 8, 9, 10][place]] = value;
            let far = [[0; 3], [1; 3]];
            push(1, diag([2; 3]), &far, &dense, DENSE, [0; 3]);
            push(1, diag([2; 3]), &far, &sparse, SPARSE, [0; 3]);
            // Found at once: the map is not read for type 1.
            if value == -1 {
                push(1, IDENTITY, &[[0; 3]; 2], &dense, DENSE, [0; 3]);
                push(1, IDENTITY, &[[0; 3]; 2], &sparse, SPARSE, [0; 3]);
            }
        }
    }
    // Of what is rotated, of the image at the point, of one after it.
    let maps = [
        (vec![0, 3], DENSE),
        (vec![0, 1], DENSE),
        (vec![1, 8, 8, 8, 8, 8, 8, 8, 0, 2], SPARSE),
        (vec![1, 8, 8, 8, 8, 8, 8, 8, 0, 0], SPARSE),
    ];
    for place in 0..9 {
        for number in [ADDRESS, ADDRESS + 1] {
            let mut addresses = [[3; 3], [1; 3], [2; 3]];
            addresses[place / 3][place % 3] = [number, -number][place % 2];
            for (map, bz_grid_type) in &maps {
                push(1, INVERSION, &addresses, map, *bz_grid_type, [1; 3]);
            }
        }
    }
    let [most, least] = [ROTATION_ENTRY, -ROTATION_ENTRY];
    let rotation = [[most; 3], [least; 3], [most, least, most]];
    for number in [
        ADDRESS,
        -ADDRESS,
        ADDRESS + 1,
        -ADDRESS - 1,
        i64::MIN,
        i64::MAX,
    ] {
        for (map, bz_grid_type) in &maps {
            push(2, rotation, &[[number; 3]; 3], map, *bz_grid_type, [1; 3]);
        }
    }
    inputs
}

/// Indices asked for, and tables that are too short for the walk.
fn indices() -> Vec<RotateInput> {
    let mut inputs = Vec::new();
    for tables in both([2, 1, 1], REGULAR[0]) {
        for index in [-1, 3, 4, MAP_VALUE, i64::MIN, i64::MAX] {
            inputs.push(RotateInput::new(index, IDENTITY, &tables, [0; 3]));
        }
        for images in 0..3 {
            for rotation in [IDENTITY, INVERSION] {
                let mut tables = tables.clone();
                Arc::make_mut(&mut tables.addresses).truncate(3 * images);
                for index in 0..=images as i64 {
                    inputs.push(RotateInput::new(index, rotation, &tables, [0; 3]));
                }
            }
        }
        let length = tables.map.len();
        for left in [0, 1, length / 2, length - 2, length - 1] {
            let mut tables = tables.clone();
            Arc::make_mut(&mut tables.map).truncate(left);
            for rotation in [IDENTITY, INVERSION, diag([3, 1, 1])] {
                inputs.push(RotateInput::new(1, rotation, &tables, [0; 3]));
            }
        }
    }
    inputs
}

/// Numbers past their limits and lengths that are wrong, with what would be refused
/// after them.
fn refused() -> Vec<RotateInput> {
    let tables = LentTables::new(&[[0; 3]], &[0, 1], [1; 3], DENSE);
    let plain = RotateInput::new(0, IDENTITY, &tables, [0; 3]);
    let mut inputs = Vec::new();
    for place in 0..9 {
        for number in [ROTATION_ENTRY, ROTATION_ENTRY + 1] {
            let mut input = plain.clone();
            input.rotation[place] = [number, -number][place % 2];
            inputs.push(input);
        }
    }
    for d in grids::AT_LIMITS {
        inputs.push(RotateInput {
            d: d.to_vec(),
            ..plain.clone()
        });
    }
    for ps in [[1; 3], [2, 0, 0], [0, -1, 0], [0, 0, i64::MAX]] {
        inputs.push(RotateInput {
            ps: ps.to_vec(),
            ..plain.clone()
        });
    }
    for bz_grid_type in NO_TYPES {
        for index in [0, 1] {
            inputs.push(RotateInput {
                bz_grid_type,
                index,
                ..plain.clone()
            });
        }
    }
    let outside = RotateInput {
        index: -1,
        d: vec![0; 3],
        ps: vec![2; 3],
        bz_grid_type: 3,
        ..plain.clone()
    };
    inputs.push(outside.clone());
    for by in [0, 1, 2] {
        let resized = |length: usize| vec![ROTATION_ENTRY + 1; [0, length - 1, length + 1][by]];
        let changes: [&dyn Fn(&mut RotateInput); 4] = [
            &|input| input.rotation = resized(9),
            &|input| input.addresses = Arc::new(vec![0; by + 1 + by / 2]),
            &|input| input.d = resized(3),
            &|input| input.ps = resized(3),
        ];
        for change in changes {
            for input in [&plain, &outside] {
                let mut input = input.clone();
                change(&mut input);
                inputs.push(input);
            }
        }
    }
    inputs
}

/// Another record, and what is refused before it or after it.
fn other_records() -> Vec<RotateInput> {
    let changes: [Change<RotateInput>; 8] = [
        |input| input.d[0] = 0,
        |input| input.ps[2] = 2,
        |input| input.rotation[4] = ROTATION_ENTRY + 1,
        |input| input.bz_grid_type = 3,
        |input| (input.bz_grid_type, input.table[6]) = (0, 0),
        |input| input.index = -1,
        |input| input.addresses = Arc::new(vec![]),
        |input| input.map = Arc::new(vec![]),
    ];
    let of = |tables| {
        let plain = RotateInput::new(1, IDENTITY, tables, [1, 0, 1]);
        records::at_limits(&plain, &changes)
    };
    both([1, 2, 1], REGULAR[0]).iter().flat_map(of).collect()
}

impl Input for RotateInput {
    fn at_limits() -> Vec<RotateInput> {
        [RotateInput::agreeing_at_limits(), other_records()].concat()
    }

    fn random(random: &mut Random) -> RotateInput {
        let mut case = Case::random(random);
        match random.below(8) {
            0 => case.tables.damage(random),
            1 => case.damage(random),
            _ => {}
        }
        let Case {
            tables,
            ps,
            rotation,
            index,
        } = case;
        let mut input = RotateInput::new(index, rotation, &tables, ps);
        match random.below(100) {
            0 => input.bz_grid_type = random.pick(&NO_TYPES),
            1 => input.d = grids::damaged_diagonal(random).to_vec(),
            2 => input.ps = grids::damaged_shift(random).to_vec(),
            3 => {
                let damaged = matrices::damaged(random, rotation, ROTATION_ENTRY);
                input.rotation = damaged.as_flattened().to_vec();
            }
            4 => lent::damage(random, &mut input.rotation),
            5 => lent::damage(random, &mut input.d),
            6 => lent::damage(random, &mut input.ps),
            _ => {}
        }
        input.agreeing()
    }

    fn other_record(&mut self, random: &mut Random) {
        records::change(random, &mut self.table);
    }

    /// A rotation that keeps a grid of 16 by 16 by 16, with tables of either type.
    fn typical(random: &mut Random) -> RotateInput {
        let chosen = random.below(TYPES.len());
        RotateInput::of_typical(random, chosen)
    }

    /// The index; the slices rotation, addresses, map, table, d and ps; the type.
    fn write(&self, line: &mut Line) {
        line.number(self.index);
        self.write_given(line);
    }
}
