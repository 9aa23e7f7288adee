//! The rotation of many images, which the Rust makes one by one.

use crate::bench::{call, Call, Timed};
use crate::function::{Function, Outputs};
use crate::inputs::images::TYPES;
use crate::inputs::lent_bursts::BurstInput;
use crate::inputs::lent_rotations::RotateInput;
use crate::port;
use crate::refusals::BAD_GRID_TYPE;
use crate::rotate_bz_grid_index::Given;
use crate::tests::length;
use crate::vectors::FILE_BYTES;

/// A type that is none, where no index has the Rust asked.
fn grid_type(input: &BurstInput) -> Result<(), i64> {
    let asked = !input.indices.is_empty();
    let holds = asked || TYPES.contains(&input.single.bz_grid_type);
    holds.then_some(()).ok_or(BAD_GRID_TYPE)
}

/// A line of the vectors: the slices indices, rotation, addresses, map, table, d and ps, each
/// as its length and its items; the type; the answer; the outputs out and fallbacks, each as
/// its length and its items, or its length and a sum if it has over 432 places.
pub struct RotateBzGridIndices;

impl Function for RotateBzGridIndices {
    const VECTORS: usize = 720;

    const ROOM: usize = FILE_BYTES;

    const HELD: &'static [usize] = &[2_048; 2];

    type Input = BurstInput;

    fn outputs(input: &BurstInput) -> Outputs {
        Outputs::slices(&input.places, 0)
    }

    fn port(
        BurstInput {
            indices, single, ..
        }: &BurstInput,
        outputs: &mut Outputs,
    ) -> i64 {
        let [out, fallbacks] = &mut outputs.slices[..] else {
            panic!("two slices");
        };
        port::answer(zone::rotate_bz_grid_indices(
            indices,
            &single.rotation,
            &single.addresses,
            &single.map,
            &single.table,
            &single.d,
            &single.ps,
            single.bz_grid_type,
            out,
            fallbacks,
        ))
    }

    fn oracle(input: &BurstInput, outputs: &mut Outputs) -> i64 {
        outputs.answer(|slices, _| {
            let given = Given::of(&input.single)?;
            let count = input.indices.len();
            length(slices.iter().all(|slice| slice.len() == count))?;
            given.limits()?;
            grid_type(input)?;
            given.grid()?;
            for (place, &index) in input.indices.iter().enumerate() {
                [slices[0][place], slices[1][place]] = given.rotated(index)?;
            }
            Ok(())
        })
    }
}

impl Timed for RotateBzGridIndices {
    const INPUTS: usize = 8;

    /// A call for each index. Its caller is told no fallback.
    fn bare(input: &BurstInput) -> Call<'_> {
        let given = Given::of(&input.single).expect("right lengths");
        call((given, &input.indices), |(given, indices), outputs| {
            for (place, &index) in outputs.slices[0].iter_mut().zip(*indices) {
                *place = given.call(index).expect("a type");
            }
        })
    }
}

/// The port's own call for each index, which stands where the Rust does elsewhere.
pub fn burst_over_singles(input: &BurstInput) -> Call<'_> {
    call(
        input,
        |BurstInput {
             indices, single, ..
         },
         outputs| {
            let RotateInput {
                rotation,
                addresses,
                map,
                table,
                d,
                ps,
                bz_grid_type,
                ..
            } = single;
            let mut told = [0; 2];
            for (place, &index) in indices.iter().enumerate() {
                port::answer(zone::rotate_bz_grid_index(
                    index,
                    rotation,
                    addresses,
                    map,
                    table,
                    d,
                    ps,
                    *bz_grid_type,
                    &mut told,
                ));
                [outputs.slices[0][place], outputs.slices[1][place]] = told;
            }
        },
    )
}

#[cfg(test)]
mod tests;
