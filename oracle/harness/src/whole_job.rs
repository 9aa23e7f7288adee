//! The chain as the bench times it: the five calls in slices that are lent once, each
//! given what those before it left, beside those of the Rust.

use phonors::bzgrid::bz_grid_addresses;
use phonors::snf3x3::snf3x3;
use phonors::transform_rotations::transform_rotations;
use phonors::triplet_grid::{bz_triplets_at_q, ir_triplets_at_q};
use zone::Refusal;

use crate::bench::{call, Call, Timed};
use crate::chain::{chain, Rust, Steps};
use crate::function::{Function, Outputs};
use crate::inputs::chains::ChainInput;
use crate::inputs::images::DENSE;
use crate::port;
use crate::refusals::ACCEPTED;

/// Where the outputs of the last two calls begin among those of all.
const CLASSES: usize = 10;
const TRIPLETS: usize = 13;

/// What the triplets start from: the point, or the first of its images.
fn start(input: &ChainInput, point: i64, map: &[i64]) -> i64 {
    match input.bz_grid_type {
        DENSE => map[point as usize],
        _ => point,
    }
}

/// The five exports. The classes tell the lengths of the triplets' slices, whose room
/// stays from one job to the next.
fn exports(input: &ChainInput, slices: &mut [Vec<i64>]) -> Result<(), Refusal> {
    let (
        [d, p, q, rounds, rotations, _, addresses, map, grg, told],
        [map_triplets, map_q, classes, out, left, left_length, cells, _],
    ) = slices.split_at_mut(CLASSES)
    else {
        panic!("the outputs of five calls");
    };
    let ChainInput {
        ps,
        bz_grid_type,
        time_reversal,
        swappable,
        ..
    } = *input;
    let list = input.rotations.as_flattened().as_flattened();
    let lattice = input.lattice.as_flattened();

    zone::snf3x3(input.a.as_flattened(), d, p, q, rounds)?;
    zone::transform_rotations(list, d, q, rotations)?;
    zone::bz_grid_addresses(d, q, &ps, lattice, bz_grid_type, addresses, map, grg, told)?;
    let point = input.point(map_triplets.len() as i64);
    zone::ir_triplets_at_q(
        point,
        d,
        rotations,
        time_reversal,
        swappable,
        map_triplets,
        map_q,
        classes,
    )?;
    let triplets = classes[0] as usize;
    out.resize(3 * triplets, 0);
    left.resize(triplets, 0);
    left_length.resize(triplets, 0);
    cells.resize(3 * triplets, 0);
    zone::bz_triplets_at_q(
        start(input, point, map),
        addresses,
        map,
        &told[3..],
        map_triplets,
        d,
        q,
        lattice,
        bz_grid_type,
        out,
        left,
        port::floats(left_length),
        cells,
    )
}

/// A chain of a list as it stands, from the first image of its point.
pub struct WholeJob;

impl Function for WholeJob {
    const LENT: bool = false;

    type Input = ChainInput;

    fn outputs(input: &ChainInput) -> Outputs {
        let mut outputs = Outputs::told(0);
        WholeJob::oracle(input, &mut outputs);
        outputs.slices.iter_mut().for_each(|slice| slice.fill(0));
        outputs.slices[TRIPLETS..].iter_mut().for_each(Vec::clear);
        outputs
    }

    fn port(input: &ChainInput, outputs: &mut Outputs) -> i64 {
        port::answer(exports(input, &mut outputs.slices))
    }

    fn oracle(input: &ChainInput, outputs: &mut Outputs) -> i64 {
        let mut steps = Steps::default();
        let ended = chain::<Rust>(&mut steps, input);
        outputs.slices = steps.slices;
        ended.err().unwrap_or(ACCEPTED)
    }
}

impl Timed for WholeJob {
    const INPUTS: usize = 8;

    fn bare(input: &ChainInput) -> Call<'_> {
        call(input, |input, _| {
            let ChainInput {
                a,
                ref rotations,
                time_reversal,
                swappable,
                lattice,
                ps,
                bz_grid_type,
                ..
            } = **input;
            let diagonal = snf3x3(a).expect("accepted");
            let (d, q) = (diagonal.d_diag, diagonal.q);
            let list = transform_rotations(rotations, d, q).expect("accepted");
            let images = bz_grid_addresses(d, q, ps, lattice, bz_grid_type).expect("accepted");
            let point = input.point(d.iter().product());
            let classes =
                ir_triplets_at_q(point, d, &list, time_reversal, swappable).expect("accepted");
            bz_triplets_at_q(
                start(input, point, &images.bz_map),
                &images.addresses,
                &images.bz_map,
                &classes.map_triplets,
                d,
                q,
                lattice,
                bz_grid_type,
            )
        })
    }
}

#[cfg(test)]
mod tests {
    use super::*;
    use crate::compare::both;
    use crate::function::Input;
    use crate::inputs::chains::Way;
    use crate::random::Random;

    /// The exports leave what the chain leaves, of any job.
    #[test]
    fn any_job() {
        let mut random = Random::new(1);
        let mut accepted = 0;
        for _ in 0..300 {
            let input = ChainInput {
                way: Way::AsItStands,
                image: 0,
                ..ChainInput::random(&mut random)
            };
            if WholeJob::oracle(&input, &mut Outputs::told(0)) == ACCEPTED {
                let [port, rust] = both::<WholeJob>(&input, WholeJob::outputs(&input));
                assert_eq!(port, rust, "{input:?}");
                accepted += 1;
            }
        }
        assert!(accepted > 100);
    }

    /// A job of the bench has all 48 operations and the points of the image calls.
    #[test]
    fn typical_jobs() {
        let mut random = Random::new(1);
        for input in [ChainInput::sparse, ChainInput::dense].map(|of_type| of_type(&mut random)) {
            let outputs = WholeJob::outputs(&input);
            assert_eq!(outputs.slices[4].len(), 9 * 48);
            assert_eq!(outputs.slices[CLASSES].len(), 4_096);
        }
    }
}
