//! What `rotate_bz_grid_indices` is lent: at the limits, random and damaged.

use std::sync::Arc;

use phonors::common::{IDENTITY, INVERSION};

use crate::function::{Input, Line};
use crate::inputs::images::{DENSE, NO_TYPES};
use crate::inputs::lattices::REGULAR;
use crate::inputs::lent_rotations::RotateInput;
use crate::inputs::matrices::diag;
use crate::inputs::records::{self, Change, Recorded};
use crate::inputs::tables::{self, both, LentTables, TYPICAL};
use crate::limits::{ADDRESS, MAP_VALUE, ROTATION_ENTRY};
use crate::random::Random;

/// Many indices, and what the single call of each has beside it: the index there is not
/// asked for.
#[derive(Clone, Debug)]
pub struct BurstInput {
    pub indices: Vec<i64>,
    pub single: RotateInput,
    /// Places of the two outputs that are lent.
    pub places: [usize; 2],
}

/// Indices of a burst of the bench.
const TYPICAL_INDICES: usize = 4_000;

/// Images of a table that are listed at the limits, at most.
const IMAGES: usize = 12;

impl BurstInput {
    /// With outputs of the right length.
    pub fn new(indices: &[i64], single: RotateInput) -> BurstInput {
        BurstInput {
            indices: indices.to_vec(),
            single,
            places: [indices.len(); 2],
        }
    }

    /// Every image of its table, then its own index once more.
    fn about(single: RotateInput) -> BurstInput {
        let images = 0..single.images().min(IMAGES) as i64;
        let indices: Vec<i64> = images.chain([single.index]).collect();
        BurstInput::new(&indices, single)
    }

    /// The single call of each index.
    pub fn singles(&self) -> impl Iterator<Item = RotateInput> + '_ {
        let single = |&index| RotateInput {
            index,
            ..self.single.clone()
        };
        self.indices.iter().map(single)
    }

    /// Images of the typical grid with tables of one type.
    pub fn sparse(random: &mut Random) -> BurstInput {
        BurstInput::of_typical(random, RotateInput::sparse)
    }

    pub fn dense(random: &mut Random) -> BurstInput {
        BurstInput::of_typical(random, RotateInput::dense)
    }

    fn of_typical(random: &mut Random, single: fn(&mut Random) -> RotateInput) -> BurstInput {
        let single = single(random);
        let images = TYPICAL.0[0].images();
        let index = |_| random.below(images) as i64;
        let indices: Vec<i64> = (0..TYPICAL_INDICES).map(index).collect();
        BurstInput::new(&indices, single)
    }
}

impl Recorded for BurstInput {
    fn record(&mut self) -> &mut Vec<i64> {
        &mut self.single.table
    }

    fn own(&self) -> Vec<i64> {
        self.single.own()
    }
}

/// Both types of a small grid with three images, of which a rotation takes some to no image.
fn three_images() -> [RotateInput; 2] {
    let rotation = diag([3, 1, 1]);
    both([2, 1, 1], REGULAR[0]).map(|tables| RotateInput::new(0, rotation, &tables, [0; 3]))
}

/// An index that is none at the first place, in the middle and at the last, several of them,
/// and nothing else; an image whose address is outside its limits likewise.
fn refused_at() -> Vec<BurstInput> {
    let mut inputs = Vec::new();
    for single in three_images() {
        let mut push = |indices: &[i64], single: &RotateInput| {
            inputs.push(BurstInput::new(indices, single.clone()));
        };
        for index in [-1, -3, 3, 1 << 32, MAP_VALUE, i64::MIN, i64::MAX] {
            for place in [0, 2, 4] {
                let mut indices = [0, 2, 1, 2, 0];
                indices[place] = index;
                push(&indices, &single);
            }
            push(&[index], &single);
            push(&[index; 3], &single);
        }
        let mut outside = single.clone();
        Arc::make_mut(&mut outside.addresses)[4] = ADDRESS + 1;
        for indices in [[1, 0, 2], [0, 1, 2], [0, 2, 1], [0, 2, 0], [-1, 1, -1]] {
            push(&indices, &outside);
        }
    }
    inputs
}

/// One index alone, often, and between others; more of them than the table has images.
fn repeated() -> Vec<BurstInput> {
    let lists: [&[i64]; 6] = [
        &[1],
        &[1, 1],
        &[2, 2, 2, 2, 2, 2, 2],
        &[0, 1, 0, 1, 0, 1],
        &[2, 1, 0, 0, 1, 2],
        &[1, 1, 1, 0, 2, 2, 1],
    ];
    let of = |single: RotateInput| lists.map(|list| BurstInput::new(list, single.clone()));
    three_images().into_iter().flat_map(of).collect()
}

/// About the length that the vectors list, and the most that they hold.
fn long() -> Vec<BurstInput> {
    let [sparse, dense] = three_images();
    let repeated = |count: i64, single: &RotateInput| {
        let indices: Vec<i64> = (0..count).map(|n| n * n % 3).collect();
        BurstInput::new(&indices, single.clone())
    };
    let mut refused = repeated(2_000, &dense);
    refused.indices[1_999] = 3;
    let listed = [repeated(432, &dense), repeated(433, &dense)];
    [vec![repeated(2_048, &sparse), refused], listed.to_vec()].concat()
}

/// Tests that are made without an index too, with some that would follow.
const WITHOUT_INDEX: [Change<BurstInput>; 21] = [
    |_| {},
    |input| input.single.addresses = Arc::new(vec![]),
    |input| input.single.map = Arc::new(vec![]),
    |input| input.places = [1, 0],
    |input| input.places = [0, 1],
    |input| input.places = [2, 2],
    |input| input.single.rotation.truncate(8),
    |input| input.single.addresses = Arc::new(vec![0; 4]),
    |input| input.single.d.push(1),
    |input| input.single.ps.truncate(2),
    |input| input.single.table.push(1),
    |input| input.single.rotation[8] = -ROTATION_ENTRY,
    |input| input.single.rotation[8] = -ROTATION_ENTRY - 1,
    |input| input.single.d[1] = 0,
    |input| input.single.d[2] = 257,
    |input| input.single.ps[0] = -1,
    |input| (input.single.d[0], input.single.bz_grid_type) = (0, 3),
    |input| (input.places, input.single.d[0]) = ([1, 1], 0),
    |input| (input.places, input.single.bz_grid_type) = ([1, 1], 0),
    |input| (input.places, input.single.table[6]) = ([1, 1], 0),
    |input| (input.single.bz_grid_type, input.single.table[6]) = (0, 0),
];

fn without_index() -> Vec<BurstInput> {
    let mut inputs = Vec::new();
    for tables in both([1, 2, 1], REGULAR[0]) {
        let single = RotateInput::new(0, INVERSION, &tables, [1, 0, 1]);
        let plain = BurstInput::new(&[], single);
        let mut push = |change: &dyn Fn(&mut BurstInput)| {
            let mut input = plain.clone();
            change(&mut input);
            inputs.push(input);
        };
        WITHOUT_INDEX.iter().for_each(|change| push(change));
        for bz_grid_type in NO_TYPES {
            push(&|input| input.single.bz_grid_type = bz_grid_type);
        }
        for place in 0..7 {
            push(&|input| input.single.table[place] += 1);
        }
        push(&|input| input.single.table.fill(i64::MAX));
    }
    inputs
}

/// Outputs of other lengths than the indices, one or both, also where a number, the type,
/// the record or an index is refused.
fn lengths() -> Vec<BurstInput> {
    let tables = LentTables::new(&[[0; 3]], &[0, 1], [1; 3], DENSE);
    let single = RotateInput::new(0, IDENTITY, &tables, [0; 3]);
    let plain = BurstInput::new(&[0, 0, 0], single);
    let changes: [Change<BurstInput>; 5] = [
        |_| {},
        |input| input.single.d[0] = 0,
        |input| input.single.bz_grid_type = 0,
        |input| input.single.table[0] = 2,
        |input| input.indices[1] = 1,
    ];
    let mut inputs = Vec::new();
    for change in changes {
        for places in [
            [2, 3],
            [3, 2],
            [2, 2],
            [4, 3],
            [3, 4],
            [4, 4],
            [2, 4],
            [0, 0],
            [6, 0],
        ] {
            let mut input = plain.clone();
            change(&mut input);
            inputs.push(BurstInput { places, ..input });
        }
    }
    inputs
}

/// Another record, and what is refused before it or after it.
fn other_records() -> Vec<BurstInput> {
    let changes: [Change<BurstInput>; 9] = [
        |input| input.single.d[0] = 0,
        |input| input.single.rotation[4] = ROTATION_ENTRY + 1,
        |input| input.single.bz_grid_type = 3,
        |input| (input.single.bz_grid_type, input.single.table[6]) = (0, 0),
        |input| input.indices[0] = -1,
        |input| input.single.addresses = Arc::new(vec![]),
        |input| input.single.map = Arc::new(vec![]),
        |input| input.places[0] = 2,
        |input| input.places[1] = 4,
    ];
    let of = |tables| {
        let single = RotateInput::new(0, IDENTITY, tables, [1, 0, 1]);
        records::at_limits(&BurstInput::new(&[1, 0, 1], single), &changes)
    };
    both([1, 2, 1], REGULAR[0]).iter().flat_map(of).collect()
}

/// As a rule images of the table, in any order; the index of the single call is often among
/// them, since damage stands there. In one of four some index is none or another one.
fn any_indices(random: &mut Random, single: &RotateInput) -> Vec<i64> {
    let count = match random.below(12) {
        0 => 0,
        1 => 200 + random.below(1_800),
        _ => 1 + random.below(24),
    };
    let images = single.images();
    let mut indices = vec![single.index; count];
    for index in indices.iter_mut() {
        if images > 0 && !random.one_in(8) {
            *index = random.below(images) as i64;
        }
    }
    if count > 0 && random.one_in(4) {
        let any = random.below(count);
        let place = random.pick(&[0, any, count - 1]);
        indices[place] = match random.coin() {
            true => tables::no_index(random, images as i64),
            false => records::other(random, indices[place]),
        };
    }
    indices
}

impl Input for BurstInput {
    /// Those of the single call, each about its table, then what a burst has besides.
    fn at_limits() -> Vec<BurstInput> {
        let singles = RotateInput::agreeing_at_limits();
        let mut inputs: Vec<BurstInput> = singles.into_iter().map(BurstInput::about).collect();
        inputs.extend(repeated());
        inputs.extend(refused_at());
        inputs.extend(without_index());
        inputs.extend(lengths());
        inputs.extend(other_records());
        inputs.extend(long());
        inputs
    }

    /// Without an index a type that is none would be rare.
    fn random(random: &mut Random) -> BurstInput {
        let single = RotateInput::random(random);
        let indices = any_indices(random, &single);
        let mut input = BurstInput::new(&indices, single);
        if indices.is_empty() && random.one_in(8) {
            input.single.bz_grid_type = random.pick(&NO_TYPES);
            input = input.agreeing();
        }
        if random.one_in(50) {
            let count = indices.len();
            let [more, less] = [count + 1, count.saturating_sub(1)];
            input.places = random.pick(&[[more; 2], [less; 2], [more, less], [less, more]]);
        }
        input
    }

    fn other_record(&mut self, random: &mut Random) {
        self.single.other_record(random);
    }

    /// 4,000 images of a grid of 16 by 16 by 16, by a rotation that keeps it, with tables of
    /// either type.
    fn typical(random: &mut Random) -> BurstInput {
        BurstInput::of_typical(random, RotateInput::typical)
    }

    /// The slice of the indices; then what the single call has beside its own.
    fn write(&self, line: &mut Line) {
        line.slice(&self.indices);
        self.single.write_given(line);
    }
}
