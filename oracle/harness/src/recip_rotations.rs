//! The functions of recip_rotations.

use phonors::common::MatI;
use phonors::recip_rotations::{
    get_reciprocal_point_group, reciprocal_rotations, ReciprocalRotationsError,
};

use crate::bench::{call, Call, Timed};
use crate::function::{Function, Input, Line, Outputs};
use crate::inputs::groups::{self, CUBIC};
use crate::limits::{RECIPROCAL_ROTATIONS, ROTATION_ENTRY};
use crate::panics::counted;
use crate::random::Random;
use crate::refusals::{REFUSED_PLACE, TOO_MANY_FOR_INVERSION, TOO_MANY_ROTATIONS};
use crate::{port, tests};

/// Places of the list that is answered.
pub const PLACES: usize = 9 * RECIPROCAL_ROTATIONS;

/// A list of rotations and flags.
#[derive(Debug)]
pub struct ListInput<const FLAGS: usize> {
    pub rotations: Vec<i64>,
    pub flags: [bool; FLAGS],
}

impl<const FLAGS: usize> Input for ListInput<FLAGS> {
    fn at_limits() -> Vec<Self> {
        let input = |rotations, flag| ListInput {
            rotations,
            flags: [flag; FLAGS],
        };
        let lent = groups::lent_at_limits().into_iter();
        let mut inputs: Vec<Self> = lent.map(|list| input(list, false)).collect();
        for list in groups::distinct_at_limits() {
            inputs.push(input(list.clone(), false));
            inputs.push(input(list, true));
        }
        inputs
    }

    fn random(random: &mut Random) -> Self {
        ListInput {
            rotations: groups::lent(random),
            flags: [(); FLAGS].map(|()| random.coin()),
        }
    }

    fn typical(random: &mut Random) -> Self {
        ListInput {
            rotations: groups::flat(&CUBIC),
            flags: [(); FLAGS].map(|()| random.coin()),
        }
    }

    fn write(&self, line: &mut Line) {
        line.slice(&self.rotations);
        self.flags.iter().for_each(|&flag| line.number(flag.into()));
    }
}

/// The number of a refusal.
pub fn number(error: ReciprocalRotationsError) -> i64 {
    match error {
        ReciprocalRotationsError::TooManyRotations => TOO_MANY_ROTATIONS,
        ReciprocalRotationsError::TooManyForInversion => TOO_MANY_FOR_INVERSION,
    }
}

/// Tests the call, makes it, and hands its list over.
pub fn answer(
    rotations: &[i64],
    outputs: &mut Outputs,
    call: impl FnOnce(&[MatI]) -> Result<Vec<MatI>, i64>,
) -> i64 {
    outputs.answer(|slices, told| {
        let rotations = tests::matrices(rotations)?;
        tests::length(slices[0].len() == PLACES && told.len() == 1)?;
        tests::limit(tests::rotations_fit(&rotations, ROTATION_ENTRY))?;
        let list = counted(|| call(&rotations))??;
        let numbers = list.as_flattened().as_flattened();
        slices[0].fill(REFUSED_PLACE);
        slices[0][..numbers.len()].copy_from_slice(numbers);
        told[0] = list.len() as i64;
        Ok(())
    })
}

pub struct ReciprocalPointGroup;

impl Function for ReciprocalPointGroup {
    type Input = ListInput<2>;

    fn outputs(_: &Self::Input) -> Outputs {
        Outputs::slices(&[PLACES], 1)
    }

    fn port(input: &Self::Input, outputs: &mut Outputs) -> i64 {
        let [time_reversal, transpose] = input.flags;
        let Outputs { slices, told } = outputs;
        port::answer(zone::reciprocal_point_group(
            &input.rotations,
            time_reversal,
            transpose,
            &mut slices[0],
            told,
        ))
    }

    fn oracle(input: &Self::Input, outputs: &mut Outputs) -> i64 {
        let [time_reversal, transpose] = input.flags;
        answer(&input.rotations, outputs, |rotations| {
            get_reciprocal_point_group(rotations, time_reversal, transpose).map_err(number)
        })
    }
}

impl Timed for ReciprocalPointGroup {
    fn bare(input: &Self::Input) -> Call<'_> {
        let rotations = tests::matrices(&input.rotations).expect("matrices");
        call((rotations, input.flags), |(rotations, flags), _| {
            get_reciprocal_point_group(rotations, flags[0], flags[1])
        })
    }
}

pub struct ReciprocalRotations;

impl Function for ReciprocalRotations {
    type Input = ListInput<1>;

    fn outputs(_: &Self::Input) -> Outputs {
        Outputs::slices(&[PLACES], 1)
    }

    fn port(input: &Self::Input, outputs: &mut Outputs) -> i64 {
        let [time_reversal] = input.flags;
        let Outputs { slices, told } = outputs;
        port::answer(zone::reciprocal_rotations(
            &input.rotations,
            time_reversal,
            &mut slices[0],
            told,
        ))
    }

    fn oracle(input: &Self::Input, outputs: &mut Outputs) -> i64 {
        let [time_reversal] = input.flags;
        answer(&input.rotations, outputs, |rotations| {
            reciprocal_rotations(rotations, time_reversal).map_err(number)
        })
    }
}

impl Timed for ReciprocalRotations {
    fn bare(input: &Self::Input) -> Call<'_> {
        let rotations = tests::matrices(&input.rotations).expect("matrices");
        call((rotations, input.flags), |(rotations, flags), _| {
            reciprocal_rotations(rotations, flags[0])
        })
    }
}
