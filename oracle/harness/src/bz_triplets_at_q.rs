//! The triplets of images at a point.

use std::cell::RefCell;

use phonors::common::{MatD, MatI, Vec3I};
use phonors::watched::{Left, Walked, Watched};
use phonors::{triplet_grid, triplet_grid_watched};

use crate::bench::{call, Call, Timed};
use crate::function::{Function, Outputs};
use crate::grid_index_from_address::cell;
use crate::inputs::images::DENSE;
use crate::inputs::lattices;
use crate::inputs::lent_triplets::{places_for, TripletsInput};
use crate::inputs::matrices::is_within;
use crate::inputs::records::Record;
use crate::limits::Q_ENTRY;
use crate::panics::watched;
use crate::port;
use crate::refusals::{ACCEPTED, BAD_GRID_TYPE, REFUSED_PLACE};
use crate::rotate_bz_grid_index::{address_fits, map_value_fits};
use crate::tests::{addresses, fixed, lattice, length, limit, matrix, points, same_grid};
use crate::vectors::FILE_BYTES;

/// Turns for nothing that the Rust is let to take.
const TURNS: u128 = 1_000_000;

/// A call whose lengths are right.
pub struct Given<'a> {
    pub q0: i64,
    pub addresses: &'a [Vec3I],
    pub map: &'a [i64],
    pub table: Record,
    pub class_map: &'a [i64],
    pub d: Vec3I,
    pub q: MatI,
    pub lattice: MatD,
    pub bz_grid_type: i64,
}

/// The triplets, and what is left of each.
pub type Triplets = (Vec<Vec3I>, Vec<Left>);

impl Given<'_> {
    /// The lengths of the outputs hang on the class map alone.
    fn of<'a>(input: &'a TripletsInput, places: &[usize]) -> Result<Given<'a>, i64> {
        let given = Given {
            q0: input.q0,
            addresses: addresses(&input.addresses)?,
            map: &input.map,
            table: fixed(&input.table)?,
            class_map: &input.class_map,
            d: fixed(&input.d)?,
            q: matrix(&input.q)?,
            lattice: lattice(&input.lattice)?,
            bz_grid_type: input.bz_grid_type,
        };
        length(places == places_for(given.class_map))?;
        Ok(given)
    }

    /// Of type 2 the point is an image, which the walk tests.
    pub fn limits(&self) -> Result<(), i64> {
        let points = points(self.d)? as i64;
        limit(is_within(&self.q, Q_ENTRY))?;
        limit(lattices::is_within(&self.lattice))?;
        limit(self.bz_grid_type == DENSE || (0..points).contains(&self.q0))
    }

    fn grid(&self) -> Result<(), i64> {
        same_grid(self.table, self.d, None, self.bz_grid_type)
    }

    fn call(&self) -> Result<Vec<Vec3I>, triplet_grid::BzTripletsError> {
        triplet_grid::bz_triplets_at_q(
            self.q0,
            self.addresses,
            self.map,
            self.class_map,
            self.d,
            self.q,
            self.lattice,
            self.bz_grid_type,
        )
    }

    fn rust(&self) -> Result<Vec<Vec3I>, i64> {
        let answer = self.call();
        answer.map_err(|triplet_grid::BzTripletsError::BadGridType| BAD_GRID_TYPE)
    }

    fn watched(&self, walked: &mut Walked) -> Result<Vec<Vec3I>, i64> {
        let addresses = Watched {
            items: self.addresses,
            fits: address_fits,
        };
        let map = Watched {
            items: self.map,
            fits: map_value_fits,
        };
        triplet_grid_watched::bz_triplets_at_q(
            walked,
            self.q0,
            addresses,
            map,
            self.class_map,
            self.d,
            self.q,
            self.lattice,
            self.bz_grid_type,
        )
        .map_err(|triplet_grid_watched::BzTripletsError::BadGridType| BAD_GRID_TYPE)
    }

    /// The triplets of a call within the limits. Where the Rust would take many turns for
    /// nothing it is not asked.
    pub fn triplets(&self) -> Result<Triplets, i64> {
        let walked = RefCell::new(Walked::default());
        let plain = || {
            if walked.borrow().turns > TURNS {
                return self.watched(&mut Walked::default());
            }
            self.rust()
        };
        let triplets = watched(|| self.watched(&mut walked.borrow_mut()), plain)?;
        Ok((triplets, walked.into_inner().left))
    }

    /// The sum of the addresses of a triplet, if it has images.
    fn sum(&self, triplet: Vec3I) -> Option<Vec3I> {
        if triplet == [REFUSED_PLACE; 3] {
            return None;
        }
        let [x, y, z] = triplet.map(|image| self.addresses[image as usize]);
        Some([0, 1, 2].map(|k| x[k] + y[k] + z[k]))
    }

    /// The cell of that sum, which the Rust does not tell.
    fn cell(&self, triplet: Vec3I) -> Vec3I {
        let sum = self.sum(triplet);
        sum.map_or([-1; 3], |sum| cell(sum, self.d))
    }
}

/// The triplets of an input, or the refusal.
pub fn triplets(input: &TripletsInput) -> Result<Vec<Vec3I>, i64> {
    let given = Given::of(input, &input.places)?;
    given.limits()?;
    given.grid()?;
    let (triplets, _) = given.triplets()?;
    Ok(triplets)
}

/// Of a triplet: 1 closed, 0 a length left over, -1 empty.
pub fn left_number(left: &Left) -> i64 {
    match left {
        Left::Closed => 1,
        Left::Length(_) => 0,
        Left::Empty => -1,
    }
}

/// The bits of the length that is left over.
pub fn left_bits(left: &Left) -> i64 {
    match left {
        Left::Length(length) => bits(*length),
        _ => bits(0.0),
    }
}

fn bits(x: f64) -> i64 {
    x.to_bits() as i64
}

/// A line of the vectors: the point; the slices addresses, map, table, class_map, d and q,
/// each as its length and its items; the lattice as its length and two 32-bit words for each
/// float, the high one first; the type; the answer; the outputs out, left, left_length
/// and cells, each as its length and its items, two words for a float, or its length
/// and a sum of these if it has over 432 places.
pub struct BzTripletsAtQ;

impl Function for BzTripletsAtQ {
    const VECTORS: usize = 368;

    const ROOM: usize = FILE_BYTES;

    const HELD: &'static [usize] = &[2_048, 1_024, 1_024, 2_048];

    const FLOATS: &'static [usize] = &[2];

    type Input = TripletsInput;

    fn outputs(input: &TripletsInput) -> Outputs {
        Outputs::slices(&input.places, 0)
    }

    fn port(input: &TripletsInput, outputs: &mut Outputs) -> i64 {
        let [out, left, left_length, cells] = &mut outputs.slices[..] else {
            panic!("four slices");
        };
        port::answer(zone::bz_triplets_at_q(
            input.q0,
            &input.addresses,
            &input.map,
            &input.table,
            &input.class_map,
            &input.d,
            &input.q,
            &input.lattice,
            input.bz_grid_type,
            out,
            left,
            port::floats(left_length),
            cells,
        ))
    }

    /// A refusal leaves the float -1.0 too.
    fn oracle(input: &TripletsInput, outputs: &mut Outputs) -> i64 {
        let answer = outputs.answer(|slices, _| {
            let places: Vec<usize> = slices.iter().map(Vec::len).collect();
            let given = Given::of(input, &places)?;
            given.limits()?;
            given.grid()?;
            let (triplets, left) = given.triplets()?;
            slices[0].copy_from_slice(triplets.as_flattened());
            slices[1] = left.iter().map(left_number).collect();
            slices[2] = left.iter().map(left_bits).collect();
            slices[3] = triplets.iter().flat_map(|&at| given.cell(at)).collect();
            Ok(())
        });
        if answer != ACCEPTED {
            outputs.slices[2].fill(bits(REFUSED_PLACE as f64));
        }
        answer
    }
}

impl Timed for BzTripletsAtQ {
    const INPUTS: usize = 8;

    fn bare(input: &TripletsInput) -> Call<'_> {
        let given = Given::of(input, &input.places).expect("right lengths");
        call(given, |given, _| given.call())
    }
}

#[cfg(test)]
mod tests;
