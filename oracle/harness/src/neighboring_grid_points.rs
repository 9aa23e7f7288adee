//! The neighbours of images.

use phonors::common::Vec3I;
use phonors::watched::Watched;
use phonors::{bzgrid, bzgrid_watched};

use crate::bench::{call, Call, Timed};
use crate::function::{Function, Outputs};
use crate::inputs::lent_neighbours::NeighboursInput;
use crate::inputs::records::Record;
use crate::limits::OFFSET;
use crate::panics::watched;
use crate::port;
use crate::refusals::BAD_GRID_TYPE;
use crate::rotate_bz_grid_index::{address_fits, map_value_fits};
use crate::tests::{addresses, fixed, length, limit, points, same_grid};
use crate::vectors::FILE_BYTES;

/// A call whose lengths are right.
struct Given<'a> {
    points: &'a [i64],
    offsets: &'a [Vec3I],
    addresses: &'a [Vec3I],
    map: &'a [i64],
    table: Record,
    d: Vec3I,
    bz_grid_type: i64,
}

/// The call of the Rust, or of the version that is watched, with the forms of its
/// tables.
macro_rules! called {
    ($module:ident, $given:expr, $out:expr, $addresses:expr, $map:expr) => {{
        let view = $module::BzGridView {
            d_diag: $given.d,
            addresses: $addresses,
            gp_map: $map,
            bz_grid_type: $given.bz_grid_type,
        };
        let (points, offsets) = ($given.points, $given.offsets);
        $module::neighboring_grid_points_many($out, points, offsets, &view)
    }};
}

/// The number of its refusal.
macro_rules! number {
    ($module:ident) => {
        |error| {
            assert_eq!(error, $module::BzGridError::BadGridType);
            BAD_GRID_TYPE
        }
    };
}

impl Given<'_> {
    /// The length of the output hangs on two other lengths alone.
    fn of(input: &NeighboursInput, places: usize) -> Result<Given<'_>, i64> {
        let given = Given {
            points: &input.points,
            offsets: addresses(&input.offsets)?,
            addresses: addresses(&input.addresses)?,
            map: &input.map,
            table: fixed(&input.table)?,
            d: fixed(&input.d)?,
            bz_grid_type: input.bz_grid_type,
        };
        length(places == given.points.len() * given.offsets.len())?;
        Ok(given)
    }

    fn limits(&self) -> Result<(), i64> {
        points(self.d)?;
        let mut numbers = self.offsets.iter().flatten();
        limit(numbers.all(|number| (-OFFSET..=OFFSET).contains(number)))
    }

    fn call(&self, out: &mut [i64]) -> Result<(), bzgrid::BzGridError> {
        called!(bzgrid, self, out, self.addresses, self.map)
    }

    fn rust(&self, out: &mut [i64]) -> Result<(), i64> {
        self.call(out).map_err(number!(bzgrid))
    }

    fn watched(&self, out: &mut [i64]) -> Result<(), i64> {
        let addresses = Watched {
            items: self.addresses,
            fits: address_fits,
        };
        let map = Watched {
            items: self.map,
            fits: map_value_fits,
        };
        called!(bzgrid_watched, self, out, addresses, map).map_err(number!(bzgrid_watched))
    }

    /// Without points or offsets nothing is asked of the record.
    fn grid(&self) -> Result<(), i64> {
        if self.points.is_empty() || self.offsets.is_empty() {
            return Ok(());
        }
        same_grid(self.table, self.d, None, self.bz_grid_type)
    }

    /// A list of no offsets is accepted, where the Rust panics.
    fn neighbours(&self) -> Result<Vec<i64>, i64> {
        let places = self.points.len() * self.offsets.len();
        if self.offsets.is_empty() {
            return Ok(Vec::new());
        }
        let filled = |fill: fn(&Self, &mut [i64]) -> Result<(), i64>| {
            let mut out = vec![0; places];
            fill(self, &mut out).map(|()| out)
        };
        watched(|| filled(Self::watched), || filled(Self::rust))
    }
}

/// A line of the vectors: the slices points, offsets, addresses, map, table and d, each
/// as its length and its items; the type; the answer; the output as its length and its
/// items, or its length and a sum if it has over 432 places.
pub struct NeighboringGridPoints;

impl Function for NeighboringGridPoints {
    const VECTORS: usize = 576;

    const ROOM: usize = FILE_BYTES;

    const HELD: &'static [usize] = &[4_096];

    type Input = NeighboursInput;

    fn outputs(input: &NeighboursInput) -> Outputs {
        Outputs::slices(&[input.places], 0)
    }

    fn port(input: &NeighboursInput, outputs: &mut Outputs) -> i64 {
        port::answer(zone::neighboring_grid_points(
            &input.points,
            &input.offsets,
            &input.addresses,
            &input.map,
            &input.table,
            &input.d,
            input.bz_grid_type,
            &mut outputs.slices[0],
        ))
    }

    fn oracle(input: &NeighboursInput, outputs: &mut Outputs) -> i64 {
        outputs.answer(|slices, _| {
            let given = Given::of(input, slices[0].len())?;
            given.limits()?;
            given.grid()?;
            slices[0].copy_from_slice(&given.neighbours()?);
            Ok(())
        })
    }
}

impl Timed for NeighboringGridPoints {
    const INPUTS: usize = 4;

    /// The Rust is lent its output too.
    fn bare(input: &NeighboursInput) -> Call<'_> {
        let given = Given::of(input, input.places).expect("right lengths");
        call(given, |given, outputs| given.call(&mut outputs.slices[0]))
    }
}

#[cfg(test)]
mod tests {
    use phonors::grgrid::grid_index_from_address;

    use super::*;
    use crate::function::Input;
    use crate::inputs::images::{Images, DENSE, SPARSE};
    use crate::inputs::lattices::REGULAR;
    use crate::inputs::tables::LentTables;
    use crate::limits::{ADDRESS, MAP_VALUE};
    use crate::random::Random;
    use crate::refusals::ACCEPTED;
    use crate::{compare, vectors};

    /// The Rust's answer, and the output.
    fn asked(input: &NeighboursInput) -> (i64, Vec<i64>) {
        let mut outputs = NeighboringGridPoints::outputs(input).unlike();
        let answer = NeighboringGridPoints::oracle(input, &mut outputs);
        (answer, outputs.slices.remove(0))
    }

    #[test]
    fn neighbours_on_a_small_grid() {
        let out = |bz_grid_type| {
            // The images are at 0, -1 and 1.
            let given = Images::new([2, 1, 1], REGULAR[0], bz_grid_type);
            let tables = LentTables::of(&given).unwrap();
            let offsets = [[1, 0, 0], [-1, 0, 0], [2, 0, 0], [0, 1, 0]];
            let (answer, out) = asked(&NeighboursInput::new(&[0, 1, 2], &offsets, &tables));
            assert_eq!(answer, 0);
            out
        };
        assert_eq!(out(DENSE), [2, 1, 0, 0, 0, 0, 2, 1, 0, 0, 1, 1]);
        assert_eq!(out(SPARSE), [2, 1, 0, 0, 0, 0, 2, 1, 0, 0, 1, 1]);
    }

    /// No points or no offsets: any type, any points and any record, but 13 and 3.
    #[test]
    fn empty_lists() {
        for bz_grid_type in [SPARSE, DENSE, 0, i64::MAX] {
            let tables = LentTables::new(&[], &[], [1; 3], bz_grid_type);
            let none = NeighboursInput::new(&[], &[[0; 3]], &tables);
            assert_eq!(asked(&none), (0, vec![]));
            let mut none = NeighboursInput::new(&[-1, 7], &[], &tables);
            none.table.fill(i64::MIN);
            assert_eq!(asked(&none), (0, vec![]));
            none.table.push(0);
            assert_eq!(asked(&none), (13, vec![]));
            none.table.truncate(7);
            none.d[1] = 257;
            assert_eq!(asked(&none), (3, vec![]));
            none.places = 1;
            assert_eq!(asked(&none), (13, vec![-1]));
        }
    }

    /// Each refusal before those that would follow it.
    #[test]
    fn the_order_of_the_refusals() {
        let mut input = NeighboursInput {
            points: vec![0, 9],
            offsets: vec![1_001; 4],
            addresses: vec![ADDRESS + 1; 5].into(),
            map: vec![].into(),
            table: vec![1; 8],
            d: vec![0; 2],
            bz_grid_type: 4,
            places: 3,
        };
        let mut expect = |number, change: &dyn Fn(&mut NeighboursInput)| {
            assert_eq!(asked(&input), (number, vec![-1; input.places]));
            change(&mut input);
        };
        expect(13, &|input| input.offsets.truncate(3));
        expect(13, &|input| input.addresses = vec![ADDRESS + 1; 6].into());
        expect(13, &|input| input.d.push(0));
        expect(13, &|input| input.table.truncate(7));
        expect(13, &|input| input.places = 2);
        expect(3, &|input| input.offsets.fill(-1_000));
        expect(3, &|input| input.d.fill(1));
        expect(9, &|input| input.bz_grid_type = 2);
        expect(17, &|input| input.table[6] = 2);
        expect(14, &|input| input.points[1] = 1);
        expect(14, &|input| input.addresses = vec![ADDRESS; 6].into());
        expect(14, &|input| input.map = vec![MAP_VALUE + 1, 0].into());
        expect(14, &|input| input.map = vec![MAP_VALUE, 0].into());
        assert_eq!(asked(&input), (0, vec![MAP_VALUE; 2]));
    }

    /// Every refusal, and the ways to an answer, type by type: an empty place of the
    /// doubled mesh or an image there; the image that fits or the first.
    #[test]
    fn every_kind_is_met() {
        let [mut random, mut records] = [1, 2].map(Random::new);
        let mut met = Vec::new();
        for _ in 0..10_000 {
            let input: NeighboursInput = compare::any(&mut random, &mut records);
            let (answer, out) = asked(&input);
            if answer != 0 || input.points.is_empty() || input.offsets.is_empty() {
                met.push((answer, 0, out.is_empty() && answer == 0));
                continue;
            }
            let given = Given::of(&input, out.len()).unwrap();
            let mut fits = false;
            for (place, &neighbour) in out.iter().enumerate() {
                let point = given.points[place / given.offsets.len()];
                let base = given.addresses[point as usize];
                let offset = given.offsets[place % given.offsets.len()];
                let sum = [0, 1, 2].map(|axis| base[axis] + offset[axis]);
                fits |= given.addresses.get(neighbour as usize) == Some(&sum);
            }
            met.push((answer, input.bz_grid_type, fits));
        }
        for (kind, least) in [
            ((0, SPARSE, true), 500),
            ((0, SPARSE, false), 500),
            ((0, DENSE, true), 500),
            ((0, DENSE, false), 500),
            ((0, 0, true), 150),
            ((3, 0, false), 100),
            ((9, 0, false), 50),
            ((13, 0, false), 150),
            ((14, 0, false), 500),
            ((17, 0, false), 500),
        ] {
            let count = met.iter().filter(|&&met| met == kind).count();
            assert!(count > least, "{kind:?}: {count}");
        }
    }

    /// Reads the map of type 1 at plain indices.
    struct Plain;

    impl Function for Plain {
        type Input = NeighboursInput;

        fn outputs(input: &NeighboursInput) -> Outputs {
            NeighboringGridPoints::outputs(input)
        }

        fn port(input: &NeighboursInput, outputs: &mut Outputs) -> i64 {
            let answer = NeighboringGridPoints::oracle(input, outputs);
            if (answer, input.bz_grid_type) != (ACCEPTED, SPARSE) {
                return answer;
            }
            let out = &mut outputs.slices[0];
            let given = Given::of(input, out.len()).unwrap();
            for (place, neighbour) in out.iter_mut().enumerate() {
                let point = given.points[place / given.offsets.len()];
                let base = given.addresses[point as usize];
                let offset = given.offsets[place % given.offsets.len()];
                let sum = [0, 1, 2].map(|axis| base[axis] + offset[axis]);
                let plain = grid_index_from_address(sum, given.d);
                *neighbour = given.map.get(plain as usize).copied().unwrap_or(-1);
            }
            answer
        }

        fn oracle(input: &NeighboursInput, outputs: &mut Outputs) -> i64 {
            NeighboringGridPoints::oracle(input, outputs)
        }
    }

    #[test]
    fn the_doubled_mesh_is_compared() {
        assert!(compare::run::<Plain>(5_000, 1) > 1_000);
    }

    /// Wrong from a place on.
    struct WrongFrom<const PLACE: usize>;

    impl<const PLACE: usize> Function for WrongFrom<PLACE> {
        type Input = NeighboursInput;

        fn outputs(input: &NeighboursInput) -> Outputs {
            NeighboringGridPoints::outputs(input)
        }

        fn port(input: &NeighboursInput, outputs: &mut Outputs) -> i64 {
            let answer = NeighboringGridPoints::oracle(input, outputs);
            let places = outputs.slices[0].iter_mut().skip(PLACE);
            places.for_each(|place| *place = !*place);
            answer
        }

        fn oracle(input: &NeighboursInput, outputs: &mut Outputs) -> i64 {
            NeighboringGridPoints::oracle(input, outputs)
        }
    }

    #[test]
    fn long_outputs_are_compared() {
        assert!(compare::run::<WrongFrom<200>>(2_000, 1) > 50);
        assert!(compare::run::<WrongFrom<2_000>>(5_000, 1) > 50);
    }

    #[test]
    fn vectors_of_every_answer() {
        let lines = vectors::lines::<NeighboringGridPoints>(1);
        vectors::text(1, &lines);
        let inputs = NeighboursInput::at_limits();
        assert!(lines.len() > inputs.len());
        let met: Vec<i64> = inputs.iter().map(|input| asked(input).0).collect();
        for (answer, least) in [(0, 150), (3, 20), (9, 10), (13, 30), (14, 80), (17, 30)] {
            let count = met.iter().filter(|&&met| met == answer).count();
            assert!(count >= least, "{answer}: {count}");
        }
    }

    /// What the bench takes is accepted.
    #[test]
    fn typical_neighbours() {
        let mut random = Random::new(1);
        for input in [
            NeighboursInput::sparse,
            NeighboursInput::dense,
            NeighboursInput::typical,
        ] {
            let input = input(&mut random);
            let (answer, _) = asked(&input);
            assert!(answer == 0 && input.points.len() > 4_096 && input.offsets.len() == 72);
        }
    }
}
