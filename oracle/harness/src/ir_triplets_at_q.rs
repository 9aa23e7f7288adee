//! The classes of triplets at a point.

use phonors::triplet_grid::ir_triplets_at_q;

use crate::bench::{call, Call, Timed};
use crate::function::{Function, Outputs};
use crate::grgrid::lent_points;
use crate::inputs::lent_classes::ClassesInput;
use crate::limits::ROTATION_ENTRY;
use crate::panics::counted;
use crate::port;
use crate::recip_rotations::number;
use crate::tests::{fixed, length, limit, matrices, points, rotations_fit};

/// A line of the vectors: the point; the slices d and rotations, each as its length
/// and its items; time reversal and swapping; the answer; the outputs map_triplets and
/// map_q, each as its length and its items, or its length and a sum if it has over 432
/// places; the number of classes.
pub struct IrTripletsAtQ;

impl Function for IrTripletsAtQ {
    const VECTORS: usize = 512;

    type Input = ClassesInput;

    fn outputs(input: &ClassesInput) -> Outputs {
        let points = lent_points(&input.d);
        Outputs::slices(&[points, points], 1)
    }

    fn port(input: &ClassesInput, outputs: &mut Outputs) -> i64 {
        let Outputs { slices, told } = outputs;
        let [map_triplets, map_q] = &mut slices[..] else {
            panic!("two slices");
        };
        port::answer(zone::ir_triplets_at_q(
            input.q0,
            &input.d,
            &input.rotations,
            input.time_reversal,
            input.swappable,
            map_triplets,
            map_q,
            told,
        ))
    }

    fn oracle(input: &ClassesInput, outputs: &mut Outputs) -> i64 {
        outputs.answer(|slices, told| {
            let rotations = matrices(&input.rotations)?;
            let d = fixed(&input.d)?;
            length(told.len() == 1)?;
            let points = points(d)?;
            length(slices.iter().all(|slice| slice.len() == points))?;
            limit((0..points as i64).contains(&input.q0))?;
            limit(rotations_fit(&rotations, ROTATION_ENTRY))?;
            let ClassesInput {
                q0,
                time_reversal,
                swappable,
                ..
            } = *input;
            let call = || ir_triplets_at_q(q0, d, &rotations, time_reversal, swappable);
            let classes = counted(call)?.map_err(number)?;
            slices[0].copy_from_slice(&classes.map_triplets);
            slices[1].copy_from_slice(&classes.map_q);
            told[0] = classes.num_ir;
            Ok(())
        })
    }
}

impl Timed for IrTripletsAtQ {
    const INPUTS: usize = 8;

    fn bare(input: &ClassesInput) -> Call<'_> {
        let rotations = matrices(&input.rotations).expect("matrices");
        let d = fixed(&input.d).expect("three");
        call((input, d, rotations), |(input, d, rotations), _| {
            let [time_reversal, swappable] = [input.time_reversal, input.swappable];
            ir_triplets_at_q(input.q0, *d, rotations, time_reversal, swappable)
        })
    }
}

#[cfg(test)]
mod tests {
    use phonors::common::{IDENTITY, INVERSION};

    use super::*;
    use crate::function::Input;
    use crate::inputs::lent_classes::FLAGS;
    use crate::random::Random;
    use crate::{compare, vectors};

    /// The Rust's answer, and the outputs.
    fn asked(input: &ClassesInput) -> (i64, Outputs) {
        let mut outputs = IrTripletsAtQ::outputs(input).unlike();
        (IrTripletsAtQ::oracle(input, &mut outputs), outputs)
    }

    /// Without a group that keeps q0 only swapping joins points.
    #[test]
    fn the_point_of_the_paper() {
        for (flags, map_triplets, classes) in [
            ([false, false], [0, 1, 2], 3),
            ([true, false], [0, 1, 2], 3),
            ([false, true], [0, 1, 0], 2),
            ([true, true], [0, 1, 0], 2),
        ] {
            let input = ClassesInput::new(1, [1, 1, 3], &[IDENTITY, INVERSION], flags);
            let (answer, outputs) = asked(&input);
            assert_eq!(answer, 0);
            assert_eq!(outputs.slices, [map_triplets, [0, 1, 2]]);
            assert_eq!(outputs.told, [classes]);
        }
        let at_centre = ClassesInput::new(0, [1, 1, 3], &[INVERSION], FLAGS[0]);
        assert_eq!(asked(&at_centre).1.slices, [[0, 1, 1], [0, 1, 1]]);
    }

    /// Each refusal before those that would follow it.
    #[test]
    fn the_order_of_the_refusals() {
        let distinct = |count: i64| (0..count).flat_map(|k| [k, 0, 0, 0, 1, 0, 0, 0, 100_001]);
        let mut input = ClassesInput {
            q0: -1,
            d: vec![0; 2],
            rotations: vec![0; 10],
            time_reversal: true,
            swappable: true,
        };
        let mut places = [1, 2, 3];
        let mut expect = |number, change: &dyn Fn(&mut ClassesInput, &mut [usize; 3])| {
            let [x, y, told] = places;
            let mut outputs = Outputs::slices(&[x, y], told);
            assert_eq!(IrTripletsAtQ::oracle(&input, &mut outputs), number);
            assert_eq!(outputs.slices, [vec![-1; x], vec![-1; y]]);
            assert_eq!(outputs.told, vec![-1; told]);
            let mut written = outputs.unlike();
            assert_eq!(IrTripletsAtQ::port(&input, &mut written), number);
            assert_eq!(written, outputs);
            change(&mut input, &mut places);
        };
        expect(13, &|input, _| {
            input.rotations = distinct(49).collect();
        });
        expect(13, &|input, _| input.d.push(0));
        expect(13, &|_, places| places[2] = 1);
        expect(3, &|input, _| input.d = vec![1, 2, 1]);
        expect(13, &|_, places| places[0] = 2);
        expect(3, &|input, _| input.q0 = 2);
        expect(3, &|input, _| input.q0 = 1);
        expect(3, &|input, _| {
            for entry in input.rotations.iter_mut() {
                *entry = (*entry).min(100_000);
            }
        });
        expect(7, &|input, _| input.rotations.truncate(9 * 48));
        expect(8, &|input, _| input.time_reversal = false);
        assert_eq!(asked(&input).0, 0);
    }

    /// Every refusal, and accepted calls where the group, its part that keeps q0 and
    /// the swapping join points.
    #[test]
    fn every_kind_is_met() {
        let mut random = Random::new(1);
        let mut met = Vec::new();
        for _ in 0..5_000 {
            let input = ClassesInput::random(&mut random);
            let (answer, outputs) = asked(&input);
            let [map_triplets, map_q] = &outputs.slices[..] else {
                panic!("two slices");
            };
            let joined = answer == 0 && map_q.iter().zip(0..).any(|(&class, point)| class < point);
            met.push((answer, joined, map_triplets != map_q));
        }
        for (kind, least) in [
            ((0, true, true), 700),
            ((0, true, false), 700),
            ((0, false, true), 100),
            ((0, false, false), 100),
            ((3, false, false), 100),
            ((7, false, false), 100),
            ((8, false, false), 50),
            ((13, false, false), 20),
        ] {
            let count = met.iter().filter(|&&met| met == kind).count();
            assert!(count > least, "{kind:?}: {count}");
        }
    }

    /// Takes the list as it is, without the negatives that time reversal joins.
    struct Unjoined;

    impl Function for Unjoined {
        type Input = ClassesInput;

        fn outputs(input: &ClassesInput) -> Outputs {
            IrTripletsAtQ::outputs(input)
        }

        fn port(input: &ClassesInput, outputs: &mut Outputs) -> i64 {
            let input = ClassesInput {
                time_reversal: false,
                ..input.clone()
            };
            IrTripletsAtQ::oracle(&input, outputs)
        }

        fn oracle(input: &ClassesInput, outputs: &mut Outputs) -> i64 {
            IrTripletsAtQ::oracle(input, outputs)
        }
    }

    #[test]
    fn the_negatives_are_compared() {
        assert!(compare::run::<Unjoined>(2_000, 1) > 100);
    }

    #[test]
    fn vectors_of_every_answer() {
        let lines = vectors::lines::<IrTripletsAtQ>(1);
        vectors::text(1, &lines);
        let inputs = ClassesInput::at_limits();
        assert!(lines.len() > inputs.len());
        let met: Vec<i64> = inputs.iter().map(|input| asked(input).0).collect();
        for (answer, least) in [(0, 40), (3, 15), (7, 3), (8, 2), (13, 5)] {
            let count = met.iter().filter(|&&met| met == answer).count();
            assert!(count >= least, "{answer}: {count}");
        }
    }

    /// What the bench takes is accepted.
    #[test]
    fn typical_classes() {
        let mut random = Random::new(1);
        for input in [
            ClassesInput::swapped,
            ClassesInput::unswapped,
            ClassesInput::typical,
        ] {
            let input = input(&mut random);
            assert_eq!((asked(&input).0, input.rotations.len()), (0, 9 * 48));
        }
    }
}
