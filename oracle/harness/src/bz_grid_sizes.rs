//! The lengths of the image tables, which the Rust tells by making them.

use std::cell::RefCell;

use crate::bench::{call, Call, Timed};
use crate::bz_grid_addresses::{given, tables, BzGridAddresses};
use crate::function::{Function, Outputs};
use crate::inputs::lent_images::ImagesInput;
use crate::inputs::lent_sizes::SizesInput;
use crate::port;
use crate::tests::length;

/// A line of the vectors: the slices d, q and ps, each as its length and its items; the
/// lattice as its length and two 32-bit words for each float, the high one first; the
/// type; the answer; the three lengths.
pub struct BzGridSizes;

impl Function for BzGridSizes {
    const VECTORS: usize = 288;

    type Input = SizesInput;

    fn outputs(_: &SizesInput) -> Outputs {
        Outputs::told(3)
    }

    fn port(SizesInput(images): &SizesInput, outputs: &mut Outputs) -> i64 {
        let ImagesInput { d, q, ps, .. } = images;
        let (lattice, bz_grid_type) = (&images.lattice, images.bz_grid_type);
        port::answer(zone::bz_grid_sizes(
            d,
            q,
            ps,
            lattice,
            bz_grid_type,
            &mut outputs.told,
        ))
    }

    fn oracle(SizesInput(images): &SizesInput, outputs: &mut Outputs) -> i64 {
        outputs.answer(|_, told| {
            length(told.len() == 3)?;
            told.copy_from_slice(&tables(&given(images)?)?.sizes());
            Ok(())
        })
    }
}

impl Timed for BzGridSizes {
    const INPUTS: usize = BzGridAddresses::INPUTS;

    /// The Rust has no such call: its side makes the tables.
    fn bare(SizesInput(images): &SizesInput) -> Call<'_> {
        BzGridAddresses::bare(images)
    }
}

/// The port's own image call, with outputs of its own, which stands where the Rust does
/// elsewhere.
pub fn sizes_over_addresses(SizesInput(images): &SizesInput) -> Call<'_> {
    let lent = RefCell::new(BzGridAddresses::outputs(images));
    call(images, move |images, _| {
        BzGridAddresses::port(images, &mut lent.borrow_mut())
    })
}

#[cfg(test)]
mod tests {
    use super::*;
    use crate::function::Input;
    use crate::inputs::images::{Images, DENSE, SPARSE};
    use crate::inputs::lattices::REGULAR;
    use crate::inputs::lent_images::{diag_d, sheared};
    use crate::random::Random;
    use crate::{compare, vectors};

    /// The Rust's answer, and what is told.
    fn asked(input: &SizesInput) -> (i64, Vec<i64>) {
        let mut outputs = BzGridSizes::outputs(input).unlike();
        (BzGridSizes::oracle(input, &mut outputs), outputs.told)
    }

    #[test]
    fn the_point_of_the_paper() {
        let sizes = |d, lattice, bz_grid_type| {
            let given = Images::new(d, lattice, bz_grid_type);
            asked(&SizesInput(ImagesInput::of(&given)))
        };
        let cubic = REGULAR[0];
        assert_eq!(sizes([2, 1, 1], cubic, DENSE), (0, vec![9, 3, 3]));
        assert_eq!(sizes([2, 1, 1], cubic, SPARSE), (0, vec![9, 19, 3]));
        // More images than places of the doubled mesh.
        let long = diag_d([1.0, 1.0, 15.0]);
        assert_eq!(sizes([1; 3], long, SPARSE), (0, vec![27, 10, 9]));
        assert_eq!(sizes([1; 3], sheared(13.0), DENSE), (12, vec![-1; 3]));
    }

    /// The room that a caller has is not asked for.
    #[test]
    fn the_room_decides_nothing() {
        let exact = ImagesInput::of(&Images::new([2, 1, 1], REGULAR[0], DENSE));
        for places in [[0; 3], [8, 3, 3], [30; 3]] {
            let images = ImagesInput {
                places,
                ..exact.clone()
            };
            assert_eq!(asked(&SizesInput(images)), (0, vec![9, 3, 3]));
        }
    }

    /// 13 is given for a slice of a fixed length alone.
    #[test]
    fn every_answer_is_met() {
        let mut random = Random::new(1);
        let answers = (0..5_000).map(|_| asked(&SizesInput::random(&mut random)).0);
        let met: Vec<i64> = answers.collect();
        for (answer, least) in [
            (0, 2_500),
            (3, 200),
            (9, 50),
            (10, 50),
            (11, 100),
            (12, 500),
            (13, 50),
        ] {
            let count = met.iter().filter(|&&met| met == answer).count();
            assert!(count > least, "{answer}: {count}");
        }
    }

    /// Tells a map for type 1 without its doubled mesh.
    struct WithoutMesh;

    impl Function for WithoutMesh {
        type Input = SizesInput;

        fn outputs(input: &SizesInput) -> Outputs {
            BzGridSizes::outputs(input)
        }

        fn port(input: &SizesInput, outputs: &mut Outputs) -> i64 {
            let answer = BzGridSizes::oracle(input, outputs);
            if let (0, SPARSE) = (answer, input.0.bz_grid_type) {
                outputs.told[1] = (outputs.told[1] - 1) / 9 + 1;
            }
            answer
        }

        fn oracle(input: &SizesInput, outputs: &mut Outputs) -> i64 {
            BzGridSizes::oracle(input, outputs)
        }
    }

    #[test]
    fn every_length_is_compared() {
        assert!((200..800).contains(&compare::run::<WithoutMesh>(1_000, 1)));
    }

    /// The point of the paper first, and every answer among those at the limits.
    #[test]
    fn vectors_of_every_answer() {
        let lines = vectors::lines::<BzGridSizes>(1);
        vectors::text(1, &lines);
        let one = "1072693248 0";
        let lattice = format!("9 {one} 0 0 0 0 0 0 {one} 0 0 0 0 0 0 {one}");
        let ins = format!("3 2 1 1 9 1 0 0 0 1 0 0 0 1 3 0 0 0 {lattice} 2");
        assert_eq!(lines[0], format!("{ins} 0 9 3 3"));
        let inputs = SizesInput::at_limits();
        assert!(lines.len() > inputs.len());
        let met: Vec<i64> = inputs.iter().map(|input| asked(input).0).collect();
        for (answer, least) in [
            (0, 100),
            (3, 30),
            (9, 10),
            (10, 5),
            (11, 4),
            (12, 20),
            (13, 10),
        ] {
            let count = met.iter().filter(|&&met| met == answer).count();
            assert!(count >= least, "{answer}: {count}");
        }
    }
}
