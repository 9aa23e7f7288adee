//! The chain of five calls, each given what those before it left, on the port and on the
//! Rust; and the third demand, tried on what the port's chain leaves.

use phonors::common::{MatI, Vec3I};

use crate::bz_grid_addresses::BzGridAddresses;
use crate::bz_triplets_at_q::BzTripletsAtQ;
use crate::demand::{is_group, Finished};
use crate::function::{Function, Outputs};
use crate::inputs::chains::{ChainInput, Way};
use crate::inputs::groups::flat;
use crate::inputs::images::{Images, DENSE};
use crate::inputs::lent_classes::ClassesInput;
use crate::inputs::lent_images::ImagesInput;
use crate::inputs::lent_transforms::TransformInput;
use crate::inputs::lent_triplets::TripletsInput;
use crate::inputs::tables::LentTables;
use crate::ir_triplets_at_q::IrTripletsAtQ;
use crate::recip_rotations::{ListInput, ReciprocalPointGroup, ReciprocalRotations};
use crate::reciprocal_group::{GroupInput, ReciprocalGroup};
use crate::refusals::ACCEPTED;
use crate::snf3x3::{MatrixInput, Snf3x3};
use crate::tests::{fixed, matrices, matrix};
use crate::transform_rotations::TransformRotations;

/// Whose calls they are.
pub trait Side {
    fn call<F: Function>(input: &F::Input, outputs: &mut Outputs) -> i64;

    /// What it answers, and outputs of which a place that is not written shows.
    fn called<F: Function>(input: &F::Input) -> (i64, Outputs) {
        let mut outputs = F::outputs(input).unlike();
        let answer = Self::call::<F>(input, &mut outputs);
        (answer, outputs)
    }
}

pub struct Port;

impl Side for Port {
    fn call<F: Function>(input: &F::Input, outputs: &mut Outputs) -> i64 {
        F::port(input, outputs)
    }
}

pub struct Rust;

impl Side for Rust {
    fn call<F: Function>(input: &F::Input, outputs: &mut Outputs) -> i64 {
        F::oracle(input, outputs)
    }
}

/// Every output of the calls that were made, in their order, and what each answered.
#[derive(Default)]
pub struct Steps {
    pub slices: Vec<Vec<i64>>,
    pub answers: Vec<i64>,
}

impl Steps {
    /// The outputs of an accepted call, or its refusal.
    pub fn make<S: Side, F: Function>(&mut self, input: &F::Input) -> Result<Outputs, i64> {
        let (answer, outputs) = S::called::<F>(input);
        self.answers.push(answer);
        self.slices.extend(outputs.slices.iter().cloned());
        self.slices.push(outputs.told.clone());
        if answer == ACCEPTED {
            Ok(outputs)
        } else {
            Err(answer)
        }
    }
}

/// The list that goes into the transforming.
pub fn listed<S: Side>(steps: &mut Steps, input: &ChainInput) -> Result<Vec<MatI>, i64> {
    let (rotations, reversal) = (flat(&input.rotations), input.time_reversal);
    let Outputs { slices, told } = match input.way {
        Way::AsItStands => return Ok(input.rotations.clone()),
        Way::Rotations => steps.make::<S, ReciprocalRotations>(&ListInput {
            rotations,
            flags: [reversal],
        }),
        Way::Group => steps.make::<S, ReciprocalGroup>(&GroupInput {
            rotations,
            time_reversal: reversal,
        }),
        Way::PointGroup(transpose) => steps.make::<S, ReciprocalPointGroup>(&ListInput {
            rotations,
            flags: [reversal, transpose],
        }),
    }?;
    matrices(&slices[0][..9 * told[0] as usize])
}

fn addresses(flat: &[i64]) -> &[Vec3I] {
    flat.as_chunks().0
}

/// All calls of a chain, and whether the third demand, if it speaks of this list, holds.
pub fn chain<S: Side>(steps: &mut Steps, input: &ChainInput) -> Result<Option<bool>, i64> {
    let a = flat(&[input.a]);
    let diagonal = steps.make::<S, Snf3x3>(&MatrixInput { a })?;
    let (d, q) = (fixed(&diagonal.slices[0])?, matrix(&diagonal.slices[2])?);
    let list = listed::<S>(steps, input)?;
    let transformed = steps.make::<S, TransformRotations>(&TransformInput::new(&list, d, q))?;
    let rotations = matrices(&transformed.slices[0])?;

    let given = Images {
        d,
        q,
        ps: input.ps,
        lattice: input.lattice,
        bz_grid_type: input.bz_grid_type,
    };
    let images = steps.make::<S, BzGridAddresses>(&ImagesInput::of(&given))?;
    let [all, map, grg] = &images.slices[..] else {
        panic!("three tables");
    };
    let tables = LentTables::new(addresses(all), map, d, input.bz_grid_type);

    let point = input.point(d.iter().product());
    let flags = [input.time_reversal, input.swappable];
    let classes =
        steps.make::<S, IrTripletsAtQ>(&ClassesInput::new(point, d, &rotations, flags))?;
    let class_map = &classes.slices[0];

    let q0 = if input.bz_grid_type == DENSE {
        let of_point = |&image: &usize| grg[image] == point;
        let images: Vec<usize> = (0..grg.len()).filter(of_point).collect();
        images[input.image % images.len()] as i64
    } else {
        point
    };
    let mut last = TripletsInput::new(q0, &tables, class_map, q, input.lattice);
    last.table = images.told[3..].to_vec();
    let triplets = steps.make::<S, BzTripletsAtQ>(&last)?;
    if !is_group(&list) {
        return Ok(None);
    }
    let length = |(closed, bits): (&i64, &i64)| match closed {
        1 => None,
        _ => Some(f64::from_bits(*bits as u64)),
    };
    let left = triplets.slices[1]
        .iter()
        .zip(&triplets.slices[2])
        .map(length);
    let finished = Finished {
        rotations: &rotations,
        time_reversal: input.time_reversal,
        swappable: input.swappable,
        d,
        q,
        lattice: input.lattice,
        addresses: addresses(all),
        grg,
        q0: point,
        class_map,
        triplets: addresses(&triplets.slices[0]),
        cells: addresses(&triplets.slices[3]),
        left: &left.collect::<Vec<_>>(),
    };
    let checked = finished.check();
    if let Err(fault) = &checked {
        eprintln!("demand 3 of {input:?}: {fault}");
    }
    Ok(Some(checked.is_ok()))
}

/// Leaves every output of every call; told are the answers, then whether the demand is
/// asked and whether it holds.
fn leave<S: Side>(input: &ChainInput, outputs: &mut Outputs) -> (i64, Option<bool>) {
    let mut steps = Steps::default();
    let ended = chain::<S>(&mut steps, input);
    outputs.slices = steps.slices;
    outputs.told = steps.answers;
    match ended {
        Ok(demand) => (ACCEPTED, demand),
        Err(refusal) => (refusal, None),
    }
}

pub struct Chain;

impl Function for Chain {
    const LENT: bool = false;

    type Input = ChainInput;

    fn outputs(_: &ChainInput) -> Outputs {
        Outputs::told(0)
    }

    fn port(input: &ChainInput, outputs: &mut Outputs) -> i64 {
        let (answer, demand) = leave::<Port>(input, outputs);
        outputs.told.push(demand.is_some().into());
        outputs.told.push(demand.unwrap_or(true).into());
        answer
    }

    /// The demand holds wherever it is asked.
    fn oracle(input: &ChainInput, outputs: &mut Outputs) -> i64 {
        let (answer, demand) = leave::<Rust>(input, outputs);
        outputs.told.push(demand.is_some().into());
        outputs.told.push(true.into());
        answer
    }
}

#[cfg(test)]
mod tests {
    use super::*;
    use crate::compare;
    use crate::function::Input;
    use crate::inputs::images::TYPES;
    use crate::random::Random;

    #[test]
    fn the_job_of_the_paper() {
        for input in ChainInput::at_limits() {
            let mut outputs = Chain::outputs(&input);
            let (answer, demand) = leave::<Rust>(&input, &mut outputs);
            assert_eq!((answer, demand), (0, Some(true)), "{input:?}");
            if input.swappable {
                let triplets = &outputs.slices[outputs.slices.len() - 5];
                assert_eq!(triplets, &[1, 0, 2, 1, 1, 1]);
            }
        }
    }

    /// The demand holds of the Rust's chains, which are of every kind.
    #[test]
    fn every_kind_is_met() {
        let mut random = Random::new(1);
        let mut met = Vec::new();
        for _ in 0..1_500 {
            let input = ChainInput::random(&mut random);
            let mut outputs = Chain::outputs(&input);
            let (answer, demand) = leave::<Rust>(&input, &mut outputs);
            assert_ne!(demand, Some(false));
            // An accepted list needs no condition there.
            assert!(input.way != Way::Group || answer != 0 || demand.is_some());
            met.push((
                answer,
                input.bz_grid_type,
                input.swappable,
                demand.is_some(),
            ));
        }
        for bz_grid_type in TYPES {
            for swappable in [false, true] {
                let kind = (0, bz_grid_type, swappable, true);
                assert!(met.iter().filter(|&&met| met == kind).count() > 100);
            }
        }
        for answer in [0, 1, 3, 4, 6, 7, 9, 12, 18] {
            assert!(met.iter().any(|met| met.0 == answer), "{answer}");
        }
    }

    /// Leaves out the partners, which the demand sees as well as the comparison.
    struct Unswapped;

    impl Function for Unswapped {
        const LENT: bool = false;

        type Input = ChainInput;

        fn outputs(input: &ChainInput) -> Outputs {
            Chain::outputs(input)
        }

        fn port(input: &ChainInput, outputs: &mut Outputs) -> i64 {
            let input = ChainInput {
                swappable: false,
                ..input.clone()
            };
            Chain::oracle(&input, outputs)
        }

        fn oracle(input: &ChainInput, outputs: &mut Outputs) -> i64 {
            Chain::oracle(input, outputs)
        }
    }

    #[test]
    fn every_step_is_compared() {
        assert!(compare::run::<Unswapped>(200, 1) > 20);
    }
}
