//! The functions of grgrid.

use phonors::common::Vec3I;
use phonors::grgrid::{all_grid_addresses, ir_grid_map};

use crate::bench::{call, Call, Timed};
use crate::function::{Function, Input, Line, Outputs};
use crate::inputs::groups::{self, CUBIC};
use crate::inputs::{grids, lent};
use crate::limits::ROTATION_ENTRY;
use crate::panics::counted;
use crate::random::Random;
use crate::{port, tests};

/// Places of an output whose length hangs on a diagonal outside the limits.
const ANY_PLACES: usize = 4;

/// Places of an output that has one for each point of a lent diagonal.
pub fn lent_points(d: &[i64]) -> usize {
    tests::fixed(d)
        .and_then(tests::points)
        .unwrap_or(ANY_PLACES)
}

#[derive(Debug)]
pub struct MapInput {
    rotations: Vec<i64>,
    d: Vec<i64>,
    ps: Vec<i64>,
}

impl MapInput {
    pub fn new(rotations: &[i64], d: Vec3I, ps: Vec3I) -> MapInput {
        MapInput {
            rotations: rotations.to_vec(),
            d: d.to_vec(),
            ps: ps.to_vec(),
        }
    }
}

impl Input for MapInput {
    fn at_limits() -> Vec<MapInput> {
        let identity = [1, 0, 0, 0, 1, 0, 0, 0, 1];
        let mut inputs: Vec<MapInput> = grids::AT_LIMITS
            .iter()
            .map(|&d| MapInput::new(&identity, d, [0; 3]))
            .collect();
        for ps in [[1, 0, 1], [2, 0, 0], [0, -1, 0]] {
            inputs.push(MapInput::new(&identity, [2, 3, 2], ps));
        }
        for list in groups::lent_at_limits() {
            inputs.push(MapInput::new(&list, [2, 1, 2], [1, 1, 0]));
        }
        inputs
    }

    fn random(random: &mut Random) -> MapInput {
        let rotations = groups::lent(random);
        let d = match random.below(30) {
            0 => grids::damaged_diagonal(random),
            _ => grids::diagonal(random),
        };
        let ps = match random.below(30) {
            0 => grids::damaged_shift(random),
            _ => grids::shift(random),
        };
        MapInput {
            rotations,
            d: lent::fixed(random, &d),
            ps: lent::fixed(random, &ps),
        }
    }

    /// All 48 rotations on a grid of 40 by 40 by 40.
    fn typical(random: &mut Random) -> MapInput {
        MapInput::new(&groups::flat(&CUBIC), [40; 3], grids::shift(random))
    }

    fn write(&self, line: &mut Line) {
        line.slice(&self.rotations);
        line.slice(&self.d);
        line.slice(&self.ps);
    }
}

pub struct IrGridMap;

impl Function for IrGridMap {
    type Input = MapInput;

    fn outputs(input: &MapInput) -> Outputs {
        Outputs::slices(&[lent_points(&input.d)], 1)
    }

    fn port(input: &MapInput, outputs: &mut Outputs) -> i64 {
        let Outputs { slices, told } = outputs;
        port::answer(zone::ir_grid_map(
            &input.rotations,
            &input.d,
            &input.ps,
            &mut slices[0],
            told,
        ))
    }

    fn oracle(input: &MapInput, outputs: &mut Outputs) -> i64 {
        outputs.answer(|slices, told| {
            let rotations = tests::matrices(&input.rotations)?;
            let d = tests::fixed(&input.d)?;
            let ps = tests::fixed(&input.ps)?;
            tests::length(told.len() == 1)?;
            tests::length(slices[0].len() == tests::points(d)?)?;
            tests::limit(tests::shift_fits(ps))?;
            tests::limit(tests::rotations_fit(&rotations, ROTATION_ENTRY))?;
            let classes = counted(|| ir_grid_map(&rotations, d, ps))?;
            slices[0].copy_from_slice(&classes.map);
            told[0] = classes.num_ir;
            Ok(())
        })
    }
}

impl Timed for IrGridMap {
    const INPUTS: usize = 8;

    fn bare(input: &MapInput) -> Call<'_> {
        let rotations = tests::matrices(&input.rotations).expect("matrices");
        let [d, ps] = [&input.d, &input.ps].map(|slice| tests::fixed(slice).expect("three"));
        call((rotations, d, ps), |(rotations, d, ps), _| {
            ir_grid_map(rotations, *d, *ps)
        })
    }
}

#[derive(Debug)]
pub struct GridInput {
    pub d: Vec<i64>,
}

impl Input for GridInput {
    fn at_limits() -> Vec<GridInput> {
        let lengths = [vec![], vec![2; 2], vec![2; 4]];
        let diagonals = grids::AT_LIMITS.iter().map(|d| d.to_vec());
        let input = |d| GridInput { d };
        diagonals.chain(lengths).map(input).collect()
    }

    fn random(random: &mut Random) -> GridInput {
        let d = match random.below(10) {
            0 => grids::damaged_diagonal(random),
            _ => grids::diagonal(random),
        };
        GridInput {
            d: lent::fixed(random, &d),
        }
    }

    fn typical(_: &mut Random) -> GridInput {
        GridInput { d: vec![40; 3] }
    }

    fn write(&self, line: &mut Line) {
        line.slice(&self.d);
    }
}

pub struct AllGridAddresses;

impl Function for AllGridAddresses {
    type Input = GridInput;

    fn outputs(input: &GridInput) -> Outputs {
        Outputs::slices(&[3 * lent_points(&input.d)], 0)
    }

    fn port(input: &GridInput, outputs: &mut Outputs) -> i64 {
        port::answer(zone::all_grid_addresses(&input.d, &mut outputs.slices[0]))
    }

    fn oracle(input: &GridInput, outputs: &mut Outputs) -> i64 {
        outputs.answer(|slices, _| {
            let d = tests::fixed(&input.d)?;
            tests::length(slices[0].len() == 3 * tests::points(d)?)?;
            let addresses = counted(|| all_grid_addresses(d))?;
            slices[0].copy_from_slice(addresses.as_flattened());
            Ok(())
        })
    }
}

impl Timed for AllGridAddresses {
    const INPUTS: usize = 1;

    fn bare(input: &GridInput) -> Call<'_> {
        let d = tests::fixed(&input.d).expect("three");
        call(d, |d, _| all_grid_addresses(*d))
    }
}
