//! The image tables of a caller who knows their lengths beforehand.

use crate::bench::{Call, Timed};
use crate::bz_grid_addresses::{given, tables, BzGridAddresses, TOLD};
use crate::function::{Function, Outputs};
use crate::inputs::lent_images::ImagesInput;
use crate::inputs::lent_sizes::{FillInput, Sizes};
use crate::port;
use crate::refusals::OTHER_SIZES;
use crate::tests::{fixed, length};
use crate::vectors::FILE_BYTES;

/// Lengths that are not those of the tables.
fn known(sizes: Sizes, own: Sizes) -> Result<(), i64> {
    (sizes == own).then_some(()).ok_or(OTHER_SIZES)
}

/// A line of the vectors: that of `bz_grid_addresses`, with the slice sizes, as its length
/// and its items, between the type and the answer.
pub struct BzGridFill;

impl Function for BzGridFill {
    const VECTORS: usize = 432;

    const ROOM: usize = FILE_BYTES;

    const HELD: &'static [usize] = BzGridAddresses::HELD;

    type Input = FillInput;

    fn outputs(input: &FillInput) -> Outputs {
        BzGridAddresses::outputs(&input.images)
    }

    fn port(FillInput { images, sizes }: &FillInput, outputs: &mut Outputs) -> i64 {
        let Outputs { slices, told } = outputs;
        let [addresses, map, grg] = &mut slices[..] else {
            panic!("three slices");
        };
        let ImagesInput { d, q, ps, .. } = images;
        let (lattice, bz_grid_type) = (&images.lattice, images.bz_grid_type);
        port::answer(zone::bz_grid_fill(
            d,
            q,
            ps,
            lattice,
            bz_grid_type,
            sizes,
            addresses,
            map,
            grg,
            told,
        ))
    }

    /// The lengths are compared once the tables are known, and before their room.
    fn oracle(FillInput { images, sizes }: &FillInput, outputs: &mut Outputs) -> i64 {
        outputs.answer(|slices, told| {
            length(told.len() == TOLD)?;
            let sizes = fixed(sizes)?;
            let given = given(images)?;
            let tables = tables(&given)?;
            known(sizes, tables.sizes())?;
            tables.leave(given.record(), slices, told)
        })
    }
}

impl Timed for BzGridFill {
    const INPUTS: usize = BzGridAddresses::INPUTS;

    /// The Rust has no such call: its side finds the lengths itself.
    fn bare(input: &FillInput) -> Call<'_> {
        BzGridAddresses::bare(&input.images)
    }
}

/// The port's own image call, which stands where the Rust does elsewhere.
pub fn fill_over_addresses(input: &FillInput) -> Call<'_> {
    BzGridAddresses::export(&input.images)
}

#[cfg(test)]
mod tests {
    use phonors::common::IDENTITY;

    use super::*;
    use crate::bz_grid_sizes::BzGridSizes;
    use crate::chain::{Port, Rust, Side};
    use crate::function::Input;
    use crate::inputs::images::{Images, TYPES};
    use crate::inputs::lattices::REGULAR;
    use crate::inputs::lent_images::sheared;
    use crate::inputs::lent_sizes::SizesInput;
    use crate::random::Random;
    use crate::refusals::{ACCEPTED, SEARCH_RANGE, WRONG_LENGTH};
    use crate::vectors;

    fn asked(input: &FillInput) -> (i64, Outputs) {
        Rust::called::<BzGridFill>(input)
    }

    /// A number, and -1 everywhere.
    fn refused(images: &ImagesInput, number: i64) -> (i64, Outputs) {
        let mut outputs = BzGridAddresses::outputs(images);
        (outputs.answer(|_, _| Err(number)), outputs)
    }

    /// With the lengths that are told, the call is the single one, whatever the room; with
    /// others it is refused. Where no lengths are told, all three are refused alike.
    fn known_sizes<S: Side>(images: &ImagesInput) {
        let (sized, told) = S::called::<BzGridSizes>(&SizesInput(images.clone()));
        let single = S::called::<BzGridAddresses>(images);
        let filled = |sizes| S::called::<BzGridFill>(&FillInput::with(images.clone(), sizes));
        let sizes: Sizes = fixed(&told.told).expect("three lengths");
        let others = sizes.map(|length| length + 1);
        assert_eq!(filled(sizes), single);
        if sized == ACCEPTED {
            assert_eq!(filled(others), refused(images, OTHER_SIZES));
        } else {
            assert_eq!(filled(others), refused(images, sized));
            assert_eq!(single, refused(images, sized));
        }
        if single.0 == ACCEPTED {
            assert_eq!(single.1.told[..3], sizes);
        }
    }

    #[test]
    fn the_two_calls_are_the_single_one() {
        let mut random = Random::new(1);
        for _ in 0..1_000 {
            let images = ImagesInput::random(&mut random);
            known_sizes::<Port>(&images);
            known_sizes::<Rust>(&images);
        }
    }

    /// Each refusal before those that would follow it.
    #[test]
    fn the_order_of_the_refusals() {
        let images = ImagesInput {
            d: vec![0; 3],
            q: vec![1_001; 9],
            ps: vec![2; 3],
            lattice: vec![f64::NAN; 9],
            bz_grid_type: 3,
            places: [0; 3],
        };
        let mut input = FillInput {
            images,
            sizes: vec![-1; 4],
        };
        let mut expect = |number, change: &dyn Fn(&mut FillInput)| {
            assert_eq!(asked(&input), refused(&input.images, number));
            change(&mut input);
        };
        expect(13, &|input| input.sizes.truncate(3));
        expect(3, &|input| input.images.d = vec![1, 2, 1]);
        expect(3, &|input| input.images.q.fill(1_000));
        expect(3, &|input| input.images.ps.fill(1));
        expect(3, &|input| input.images.lattice.fill(1e6));
        expect(9, &|input| input.images.bz_grid_type = 1);
        expect(10, &|input| {
            input.images.q = IDENTITY.as_flattened().to_vec()
        });
        expect(11, &|input| {
            input.images.lattice = sheared(13.0).as_flattened().to_vec()
        });
        expect(12, &|input| {
            input.images.lattice = sheared(1.0).as_flattened().to_vec()
        });
        expect(16, &|input| input.sizes = vec![12, 19, 4]);
        expect(13, &|input| input.images.places = [12, 19, 4]);
        let (answer, outputs) = asked(&input);
        let told = vec![12, 19, 4, 1, 2, 1, 1, 1, 1, 1];
        assert_eq!((answer, outputs.told), (0, told));
    }

    /// Of the lengths of either type, those of the other are refused too.
    #[test]
    fn lengths_of_the_other_type() {
        let [sparse, dense] =
            TYPES.map(|t| ImagesInput::of(&Images::new([2, 1, 1], REGULAR[0], t)));
        for images in [&sparse, &dense] {
            for sizes in [[9, 19, 3], [9, 3, 3]] {
                let own = images.places.map(|length| length as i64) == sizes;
                let (answer, _) = asked(&FillInput::with(images.clone(), sizes));
                assert_eq!(answer, if own { ACCEPTED } else { OTHER_SIZES });
            }
        }
    }

    /// A port that is not strict: which numbers it takes for the tables' own.
    type Rule = fn(place: usize, lent: i64, own: i64) -> bool;

    /// One place without a look, numbers with the same low bits or the same size, larger
    /// ones, smaller ones.
    const RULES: [Rule; 8] = [
        |place, _, _| place == 0,
        |place, _, _| place == 1,
        |place, _, _| place == 2,
        |_, lent, own| lent as i32 == own as i32,
        |_, lent, own| lent as u8 == own as u8,
        |_, lent, own| lent.unsigned_abs() == own.unsigned_abs(),
        |_, lent, own| lent >= own,
        |_, lent, own| lent <= own,
    ];

    #[test]
    fn every_number_is_compared() {
        let mut random = Random::new(1);
        let mut told = [0; RULES.len()];
        for _ in 0..3_000 {
            let input = FillInput::random(&mut random);
            let own = FillInput::own(input.images.clone()).sizes;
            if input.sizes.len() != own.len() || asked(&input).0 != OTHER_SIZES {
                continue;
            }
            for (told, rule) in told.iter_mut().zip(RULES) {
                let mut both = (0..).zip(input.sizes.iter().zip(&own));
                let taken = both.all(|(k, (&lent, &own))| lent == own || rule(k, lent, own));
                *told += usize::from(taken);
            }
        }
        assert!(told.iter().all(|&told| told > 10), "{told:?}");
    }

    /// Cases that tell who tests the room first, and who asks for lengths that could be some
    /// before the search.
    #[test]
    fn the_order_is_compared() {
        let mut random = Random::new(1);
        let (mut room, mut search) = (0, 0);
        for _ in 0..3_000 {
            let input = FillInput::random(&mut random);
            let (answer, _) = asked(&input);
            if answer == OTHER_SIZES {
                let (single, _) = Rust::called::<BzGridAddresses>(&input.images);
                room += usize::from(single == WRONG_LENGTH);
            }
            let below_0 = input.sizes.iter().any(|&length| length < 0);
            search += usize::from(answer == SEARCH_RANGE && below_0);
        }
        assert!(room > 20 && search > 20, "{room} {search}");
    }

    #[test]
    fn every_answer_is_met() {
        let mut random = Random::new(1);
        let answers = (0..5_000).map(|_| asked(&FillInput::random(&mut random)).0);
        let met: Vec<i64> = answers.collect();
        for (answer, least) in [
            (0, 1_200),
            (3, 200),
            (9, 50),
            (10, 50),
            (11, 100),
            (12, 500),
            (13, 150),
            (16, 800),
        ] {
            let count = met.iter().filter(|&&met| met == answer).count();
            assert!(count > least, "{answer}: {count}");
        }
    }

    /// The point of the paper first, and every answer among those at the limits.
    #[test]
    fn vectors_of_every_answer() {
        let lines = vectors::lines::<BzGridFill>(1);
        vectors::text(1, &lines);
        let one = "1072693248 0";
        let lattice = format!("9 {one} 0 0 0 0 0 0 {one} 0 0 0 0 0 0 {one}");
        let ins = format!("3 2 1 1 9 1 0 0 0 1 0 0 0 1 3 0 0 0 {lattice} 2 3 9 3 3");
        let outs = "9 0 0 0 -1 0 0 1 0 0 3 0 1 3 3 0 1 1 9 3 3 2 1 1 0 0 0 2";
        assert_eq!(lines[0], format!("{ins} 0 {outs}"));
        let inputs = FillInput::at_limits();
        assert!(lines.len() > inputs.len());
        let met: Vec<i64> = inputs.iter().map(|input| asked(input).0).collect();
        for (answer, least) in [
            (0, 100),
            (3, 30),
            (9, 10),
            (10, 5),
            (11, 4),
            (12, 20),
            (13, 20),
            (16, 80),
        ] {
            let count = met.iter().filter(|&&met| met == answer).count();
            assert!(count >= least, "{answer}: {count}");
        }
    }
}
