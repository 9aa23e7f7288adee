//! The rotation of an image.

use phonors::common::{MatI, Vec3I};
use phonors::watched::Watched;
use phonors::{bzgrid, bzgrid_watched};

use crate::bench::{call, Call, Timed};
use crate::function::{Function, Outputs};
use crate::inputs::lent_rotations::RotateInput;
use crate::inputs::matrices::is_within;
use crate::inputs::records::Record;
use crate::limits::{ADDRESS, MAP_VALUE, ROTATION_ENTRY};
use crate::panics::watched;
use crate::port;
use crate::refusals::BAD_GRID_TYPE;
use crate::tests::{addresses, fixed, length, limit, matrix, points, same_grid, shift_fits};
use crate::vectors::FILE_BYTES;

pub fn address_fits(address: &Vec3I) -> bool {
    address.iter().all(|n| (-ADDRESS..=ADDRESS).contains(n))
}

pub fn map_value_fits(value: &i64) -> bool {
    (0..=MAP_VALUE).contains(value)
}

/// What a call has beside the index, with lengths that are right.
pub struct Given<'a> {
    rotation: MatI,
    addresses: &'a [Vec3I],
    map: &'a [i64],
    table: Record,
    d: Vec3I,
    ps: Vec3I,
    bz_grid_type: i64,
}

impl Given<'_> {
    pub fn of(input: &RotateInput) -> Result<Given<'_>, i64> {
        Ok(Given {
            rotation: matrix(&input.rotation)?,
            addresses: addresses(&input.addresses)?,
            map: &input.map,
            table: fixed(&input.table)?,
            d: fixed(&input.d)?,
            ps: fixed(&input.ps)?,
            bz_grid_type: input.bz_grid_type,
        })
    }

    pub fn limits(&self) -> Result<(), i64> {
        points(self.d)?;
        limit(shift_fits(self.ps))?;
        limit(is_within(&self.rotation, ROTATION_ENTRY))
    }

    pub fn grid(&self) -> Result<(), i64> {
        same_grid(self.table, self.d, Some(self.ps), self.bz_grid_type)
    }

    pub fn call(&self, index: i64) -> Result<i64, bzgrid::RotateBzGridError> {
        bzgrid::rotate_bz_grid_index(
            index,
            self.rotation,
            self.addresses,
            self.map,
            self.d,
            self.ps,
            self.bz_grid_type,
        )
    }

    fn rust(&self, index: i64) -> Result<i64, i64> {
        let answer = self.call(index);
        answer.map_err(|bzgrid::RotateBzGridError::BadGridType| BAD_GRID_TYPE)
    }

    /// Tells a fallback too.
    fn watched(&self, index: i64, fallback: &mut bool) -> Result<i64, i64> {
        bzgrid_watched::rotate_bz_grid_index(
            index,
            self.rotation,
            Watched {
                items: self.addresses,
                fits: address_fits,
            },
            Watched {
                items: self.map,
                fits: map_value_fits,
            },
            self.d,
            self.ps,
            self.bz_grid_type,
            fallback,
        )
        .map_err(|bzgrid_watched::RotateBzGridError::BadGridType| BAD_GRID_TYPE)
    }

    /// Where an image is carried, and 1 for a fallback.
    pub fn rotated(&self, index: i64) -> Result<[i64; 2], i64> {
        let mut fallback = false;
        let image = watched(|| self.watched(index, &mut fallback), || self.rust(index))?;
        Ok([image, fallback.into()])
    }
}

/// A line of the vectors: the index; the slices rotation, addresses, map, table, d and
/// ps, each as its length and its items; the type; the answer; the two numbers told.
pub struct RotateBzGridIndex;

impl Function for RotateBzGridIndex {
    const VECTORS: usize = 512;

    const ROOM: usize = FILE_BYTES;

    type Input = RotateInput;

    fn outputs(_: &RotateInput) -> Outputs {
        Outputs::told(2)
    }

    fn port(input: &RotateInput, outputs: &mut Outputs) -> i64 {
        port::answer(zone::rotate_bz_grid_index(
            input.index,
            &input.rotation,
            &input.addresses,
            &input.map,
            &input.table,
            &input.d,
            &input.ps,
            input.bz_grid_type,
            &mut outputs.told,
        ))
    }

    fn oracle(input: &RotateInput, outputs: &mut Outputs) -> i64 {
        outputs.answer(|_, told| {
            length(told.len() == 2)?;
            let given = Given::of(input)?;
            given.limits()?;
            given.grid()?;
            told.copy_from_slice(&given.rotated(input.index)?);
            Ok(())
        })
    }
}

impl Timed for RotateBzGridIndex {
    fn bare(input: &RotateInput) -> Call<'_> {
        let given = Given::of(input).expect("right lengths");
        call((given, input.index), |(given, index), _| given.call(*index))
    }
}

#[cfg(test)]
mod tests {
    use phonors::common::{IDENTITY, INVERSION};

    use super::*;
    use crate::function::Input;
    use crate::inputs::images::{Images, DENSE, SPARSE};
    use crate::inputs::lattices::REGULAR;
    use crate::inputs::lent_transforms::EXCHANGE;
    use crate::inputs::matrices::diag;
    use crate::inputs::tables::{self, LentTables};
    use crate::panics::counted;
    use crate::random::Random;
    use crate::refusals::ACCEPTED;
    use crate::{compare, vectors};

    /// The Rust's answer, and what is told.
    fn asked(input: &RotateInput) -> (i64, Vec<i64>) {
        let mut outputs = RotateBzGridIndex::outputs(input).unlike();
        let answer = RotateBzGridIndex::oracle(input, &mut outputs);
        (answer, outputs.told)
    }

    fn tables_of(d: Vec3I, bz_grid_type: i64) -> LentTables {
        LentTables::of(&Images::new(d, REGULAR[0], bz_grid_type)).unwrap()
    }

    #[test]
    fn images_of_a_small_grid() {
        for bz_grid_type in [SPARSE, DENSE] {
            // The images are at 0, -1 and 1.
            let tables = tables_of([2, 1, 1], bz_grid_type);
            let told = |index, rotation| {
                let input = RotateInput::new(index, rotation, &tables, [0; 3]);
                let (answer, told) = asked(&input);
                assert_eq!(answer, 0);
                told
            };
            for index in 0..3 {
                assert_eq!(told(index, IDENTITY), [index, 0]);
            }
            assert_eq!(told(1, INVERSION), [2, 0]);
            assert_eq!(told(2, INVERSION), [1, 0]);
        }
    }

    /// The first image of type 2; for type 1 what the doubled mesh has at the plain
    /// index, which may be 8·N.
    #[test]
    fn fallbacks() {
        let told = |d, bz_grid_type, rotation| {
            let input = RotateInput::new(1, rotation, &tables_of(d, bz_grid_type), [0; 3]);
            asked(&input).1
        };
        assert_eq!(told([2, 1, 1], DENSE, diag([3, 1, 1])), [1, 1]);
        assert_eq!(told([2, 1, 1], SPARSE, diag([3, 1, 1])), [2, 1]);
        assert_eq!(told([1, 2, 1], DENSE, diag([1, 3, 1])), [1, 1]);
        assert_eq!(told([1, 2, 1], SPARSE, diag([1, 3, 1])), [16, 1]);
    }

    /// Halving downwards would give the point 1.
    #[test]
    fn halving_goes_toward_zero() {
        let addresses = [[0, 0, 0], [1, 0, 0], [0, 1, 0], [1, 1, 0]];
        let tables = LentTables::new(&addresses, &[0, 1, 2, 3, 4], [2, 2, 1], DENSE);
        let input = RotateInput::new(0, EXCHANGE, &tables, [1, 0, 0]);
        assert_eq!(asked(&input), (0, vec![0, 0]));
    }

    /// Each refusal before those that would follow it.
    #[test]
    fn the_order_of_the_refusals() {
        let mut input = RotateInput {
            index: 5,
            rotation: vec![100_001; 8],
            addresses: vec![ADDRESS + 1; 4].into(),
            map: vec![].into(),
            table: vec![0; 6],
            d: vec![0; 4],
            ps: vec![2; 2],
            bz_grid_type: 0,
        };
        let mut expect = |number, change: &dyn Fn(&mut RotateInput)| {
            assert_eq!(asked(&input), (number, vec![-1, -1]));
            change(&mut input);
        };
        expect(13, &|input| input.rotation.push(1));
        expect(13, &|input| input.addresses = vec![ADDRESS + 1; 3].into());
        expect(13, &|input| input.d.truncate(3));
        expect(13, &|input| input.ps.push(2));
        expect(13, &|input| input.table.push(2));
        expect(3, &|input| {
            input.rotation = diag([-100_000; 3]).as_flattened().to_vec()
        });
        expect(3, &|input| input.d.fill(1));
        expect(3, &|input| input.ps.fill(0));
        expect(9, &|input| input.bz_grid_type = 2);
        expect(17, &|input| input.table[..3].fill(1));
        expect(14, &|input| input.index = 0);
        expect(14, &|input| input.addresses = vec![ADDRESS; 3].into());
        expect(14, &|input| input.map = vec![0, -1].into());
        expect(14, &|input| input.map = vec![0, 1].into());
        assert_eq!(asked(&input), (0, vec![0, 1]));
        input.d = vec![0; 3];
        let mut outputs = Outputs::told(3);
        assert_eq!(RotateBzGridIndex::oracle(&input, &mut outputs), 13);
        assert_eq!(outputs.told, [-1; 3]);
    }

    /// Values at the limits; past them, 14 where they are read.
    #[test]
    fn values_that_are_read() {
        let told = |map: [i64; 4], rotation| {
            let tables = LentTables::new(&[[0; 3], [1; 3]], &map, [1; 3], DENSE);
            asked(&RotateInput::new(1, rotation, &tables, [0; 3]))
        };
        let refused = (14, vec![-1, -1]);
        assert_eq!(told([0, 2, -1, i64::MIN], IDENTITY), (0, vec![1, 0]));
        assert_eq!(told([0, 3, 0, 0], IDENTITY), (0, vec![1, 0]));
        assert_eq!(told([0, 3, 0, 0], INVERSION), refused);
        assert_eq!(told([MAP_VALUE; 4], IDENTITY), (0, vec![MAP_VALUE, 1]));
        assert_eq!(
            told([MAP_VALUE, 0, 0, 0], IDENTITY),
            (0, vec![MAP_VALUE, 1])
        );
        assert_eq!(told([MAP_VALUE + 1; 4], IDENTITY), refused);
        assert_eq!(told([0, MAP_VALUE + 1, 0, 0], IDENTITY), refused);
        assert_eq!(told([-1, 0, 0, 0], IDENTITY), refused);
        // The largest numbers on the way.
        let [most, least] = [ROTATION_ENTRY, -ROTATION_ENTRY];
        for number in [ADDRESS, -ADDRESS] {
            let tables = LentTables::new(&[[number; 3]], &[0, 1], [1; 3], DENSE);
            for rotation in [[[most; 3]; 3], [[least; 3]; 3]] {
                let input = RotateInput::new(0, rotation, &tables, [1; 3]);
                assert_eq!(asked(&input), (0, vec![0, 1]));
            }
        }
    }

    /// Without shift, a rotation that keeps the grid takes images to images.
    #[test]
    fn kept_grids_need_no_fallback() {
        let mut random = Random::new(1);
        let mut moved = 0;
        for _ in 0..2_000 {
            let (tables, ps, rotation) = tables::kept(&mut random);
            if ps != [0; 3] {
                continue;
            }
            let index = random.below(tables.images()) as i64;
            let (answer, told) = asked(&RotateInput::new(index, rotation, &tables, ps));
            assert_eq!((answer, told[1]), (0, 0));
            moved += usize::from(told[0] != index);
        }
        assert!(moved > 500, "{moved}");
    }

    /// Every refusal, and the ways to an answer: the image at the point, one after it,
    /// the fallback, also to 8·N.
    #[test]
    fn every_kind_is_met() {
        let [mut random, mut records] = [1, 2].map(Random::new);
        let mut met = Vec::new();
        for _ in 0..20_000 {
            let input: RotateInput = compare::any(&mut random, &mut records);
            let (answer, told) = asked(&input);
            let points: i64 = input.d.iter().take(3).fold(1, |n, d| n.saturating_mul(*d));
            let to_mesh = told[0] == points.saturating_mul(8);
            let after = input.bz_grid_type == SPARSE && told[0] >= points;
            met.push(match (answer, told[1]) {
                (0, 0) => (0, input.bz_grid_type, 0, after),
                (0, _) => (0, input.bz_grid_type, 1, to_mesh),
                _ => (answer, 0, 0, false),
            });
        }
        for (kind, least) in [
            ((0, SPARSE, 0, false), 2_000),
            ((0, SPARSE, 0, true), 500),
            ((0, DENSE, 0, false), 2_000),
            ((0, SPARSE, 1, false), 1_000),
            ((0, SPARSE, 1, true), 1_000),
            ((0, DENSE, 1, false), 2_000),
            ((3, 0, 0, false), 300),
            ((9, 0, 0, false), 100),
            ((13, 0, 0, false), 300),
            ((14, 0, 0, false), 1_000),
            ((17, 0, 0, false), 1_500),
        ] {
            let count = met.iter().filter(|&&met| met == kind).count();
            assert!(count > least, "{kind:?}: {count}");
        }
    }

    /// Tests no value that it reads.
    struct Untested;

    impl Function for Untested {
        type Input = RotateInput;

        fn outputs(input: &RotateInput) -> Outputs {
            RotateBzGridIndex::outputs(input)
        }

        fn port(input: &RotateInput, outputs: &mut Outputs) -> i64 {
            let answer = RotateBzGridIndex::oracle(input, outputs);
            let Ok(given) = Given::of(input) else {
                return answer;
            };
            match (answer, counted(|| given.rust(input.index))) {
                (14, Ok(Ok(index))) => {
                    outputs.told.copy_from_slice(&[index, 0]);
                    ACCEPTED
                }
                _ => answer,
            }
        }

        fn oracle(input: &RotateInput, outputs: &mut Outputs) -> i64 {
            RotateBzGridIndex::oracle(input, outputs)
        }
    }

    #[test]
    fn values_are_compared() {
        assert!((50..1_000).contains(&compare::run::<Untested>(10_000, 1)));
    }

    /// Both types fall back, to 8·N too, and every answer is among those at the limits.
    #[test]
    fn vectors_of_every_answer() {
        let lines = vectors::lines::<RotateBzGridIndex>(1);
        vectors::text(1, &lines);
        let inputs = RotateInput::at_limits();
        assert!(lines.len() > inputs.len());
        let met: Vec<(i64, Vec<i64>)> = inputs.iter().map(asked).collect();
        let count = |holds: &dyn Fn(&RotateInput, &(i64, Vec<i64>)) -> bool| {
            let both = inputs.iter().zip(&met);
            both.filter(|(input, met)| holds(input, met)).count()
        };
        for (answer, least) in [(0, 150), (3, 15), (9, 10), (13, 20), (14, 80), (17, 50)] {
            assert!(count(&|_, met| met.0 == answer) >= least, "{answer}");
        }
        for bz_grid_type in [SPARSE, DENSE] {
            let of_type = |input: &RotateInput| input.bz_grid_type == bz_grid_type;
            assert!(count(&|input, (_, told)| of_type(input) && told[1] == 1) > 20);
            assert!(count(&|input, (_, told)| of_type(input) && told[1] == 0) > 20);
        }
        assert!(count(&|_, (_, told)| *told == [16, 1]) >= 3);
    }

    /// What the bench takes is accepted without a fallback.
    #[test]
    fn typical_rotations() {
        let mut random = Random::new(1);
        for input in [
            RotateInput::sparse,
            RotateInput::dense,
            RotateInput::typical,
        ] {
            for _ in 0..100 {
                let input = input(&mut random);
                let (answer, told) = asked(&input);
                assert_eq!((answer, told[1]), (0, 0));
            }
        }
    }
}
