//! The image tables.

use phonors::common::Vec3I;
use phonors::{bzgrid, bzgrid_watched};

use crate::bench::{call, Call, Timed};
use crate::function::{Function, Outputs};
use crate::inputs::images::Images;
use crate::inputs::lattices;
use crate::inputs::lent_images::ImagesInput;
use crate::inputs::matrices::is_within;
use crate::inputs::records::Record;
use crate::limits::Q_ENTRY;
use crate::panics::watched;
use crate::port;
use crate::refusals::{BAD_GRID_TYPE, NOT_UNIMODULAR_Q, REFUSED_PLACE, SINGULAR_LATTICE};
use crate::tests::{fixed, lattice, length, limit, matrix, points, shift_fits};
use crate::vectors::FILE_BYTES;

/// The three tables of a grid.
#[derive(Clone, Debug, PartialEq)]
pub struct Tables {
    pub addresses: Vec<Vec3I>,
    pub map: Vec<i64>,
    pub grg: Vec<i64>,
}

/// The call of the Rust, or of the version that is watched.
macro_rules! called {
    ($module:ident, $given:expr) => {{
        let Images {
            d,
            q,
            ps,
            lattice,
            bz_grid_type,
        } = *$given;
        $module::bz_grid_addresses(d, q, ps, lattice, bz_grid_type)
    }};
}

/// Its tables or its refusal.
macro_rules! built {
    ($module:ident, $given:expr) => {{
        let answer = called!($module, $given);
        let tables = answer.map(|tables| Tables {
            addresses: tables.addresses,
            map: tables.bz_map,
            grg: tables.bzg2grg,
        });
        tables.map_err(|error| match error {
            $module::BzGridAddressesError::BadGridType => BAD_GRID_TYPE,
            $module::BzGridAddressesError::NotUnimodularQ => NOT_UNIMODULAR_Q,
            $module::BzGridAddressesError::SingularReciprocalLattice => SINGULAR_LATTICE,
        })
    }};
}

/// The tables of ins that are within the limits, or the refusal.
pub fn tables(given: &Images) -> Result<Tables, i64> {
    watched(|| built!(bzgrid_watched, given), || built!(bzgrid, given))
}

impl Tables {
    /// In places.
    pub fn lengths(&self) -> [usize; 3] {
        [3 * self.addresses.len(), self.map.len(), self.grg.len()]
    }

    /// As they are told.
    pub fn sizes(&self) -> [i64; 3] {
        self.lengths().map(|length| length as i64)
    }

    /// Every table at the start of its output, if there is room, and -1 in the rest; the
    /// lengths, and the record of the grid.
    pub fn leave(
        &self,
        record: Record,
        outputs: &mut [Vec<i64>],
        told: &mut [i64],
    ) -> Result<(), i64> {
        let tables = [self.addresses.as_flattened(), &self.map, &self.grg];
        let mut both = outputs.iter().zip(tables);
        length(both.all(|(output, table)| table.len() <= output.len()))?;
        for (output, table) in outputs.iter_mut().zip(tables) {
            output.fill(REFUSED_PLACE);
            output[..table.len()].copy_from_slice(table);
        }
        told[..3].copy_from_slice(&self.sizes());
        told[3..].copy_from_slice(&record);
        Ok(())
    }
}

/// The ins of a call whose lengths are right, or the refusal of one that is not
/// within the limits.
pub fn given(input: &ImagesInput) -> Result<Images, i64> {
    let given = Images {
        d: fixed(&input.d)?,
        q: matrix(&input.q)?,
        ps: fixed(&input.ps)?,
        lattice: lattice(&input.lattice)?,
        bz_grid_type: input.bz_grid_type,
    };
    points(given.d)?;
    limit(is_within(&given.q, Q_ENTRY))?;
    limit(shift_fits(given.ps))?;
    limit(lattices::is_within(&given.lattice))?;
    Ok(given)
}

/// Three lengths, and the seven numbers of the record.
pub const TOLD: usize = 10;

/// A line of the vectors: the slices d, q and ps, each as its length and its items;
/// the lattice as its length and two 32-bit words for each float, the high one
/// first; the type; the answer; the outputs addresses, map and grg, each as its
/// length and its items, or its length and a sum if it has over 432 places; the ten
/// numbers told, the three lengths and the record.
pub struct BzGridAddresses;

impl Function for BzGridAddresses {
    const VECTORS: usize = 288;

    const ROOM: usize = FILE_BYTES;

    const HELD: &'static [usize] = &[2_048, 4_096, 2_048];

    type Input = ImagesInput;

    fn outputs(input: &ImagesInput) -> Outputs {
        Outputs::slices(&input.places, TOLD)
    }

    fn port(input: &ImagesInput, outputs: &mut Outputs) -> i64 {
        let Outputs { slices, told } = outputs;
        let [addresses, map, grg] = &mut slices[..] else {
            panic!("three slices");
        };
        let ImagesInput { d, q, ps, .. } = input;
        let (lattice, bz_grid_type) = (&input.lattice, input.bz_grid_type);
        port::answer(zone::bz_grid_addresses(
            d,
            q,
            ps,
            lattice,
            bz_grid_type,
            addresses,
            map,
            grg,
            told,
        ))
    }

    /// The length of `told` is known beforehand, those of the tables are not.
    fn oracle(input: &ImagesInput, outputs: &mut Outputs) -> i64 {
        outputs.answer(|slices, told| {
            length(told.len() == TOLD)?;
            let given = given(input)?;
            tables(&given)?.leave(given.record(), slices, told)
        })
    }
}

impl Timed for BzGridAddresses {
    const INPUTS: usize = 4;

    fn bare(input: &ImagesInput) -> Call<'_> {
        let given = given(input).expect("within the limits");
        call(given, |given, _| called!(bzgrid, given))
    }
}

#[cfg(test)]
mod tests;
