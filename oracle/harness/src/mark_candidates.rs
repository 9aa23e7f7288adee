//! The marks of the candidates of a point where the lattice is known only within ranges,
//! which the Rust does not tell: those at the corners of the ranges.

use crate::bench::{call, Call, Timed};
use crate::corners::{marks_by_pairs, Given, CANDIDATES};
use crate::function::{Function, Outputs};
use crate::inputs::lent_marks::MarksInput;
use crate::port;
use crate::tests::length;

/// A line of the vectors: the slices d, Q, ps, lowest and highest, each as its length and
/// its items; the point; the answer; the 125 marks, as their number and themselves.
pub struct MarkCandidates;

impl Function for MarkCandidates {
    const VECTORS: usize = 192;

    const HELD: &'static [usize] = &[CANDIDATES];

    type Input = MarksInput;

    fn outputs(_: &MarksInput) -> Outputs {
        Outputs::slices(&[CANDIDATES], 0)
    }

    fn port(input: &MarksInput, outputs: &mut Outputs) -> i64 {
        port::answer(zone::mark_candidates(
            &input.d,
            &input.q,
            &input.ps,
            &input.lowest,
            &input.highest,
            input.point,
            &mut outputs.slices[0],
        ))
    }

    fn oracle(input: &MarksInput, outputs: &mut Outputs) -> i64 {
        outputs.answer(|slices, _| {
            let given = Given::of(input)?;
            length(slices[0].len() == CANDIDATES)?;
            given.tested()?;
            slices[0].copy_from_slice(&given.marks());
            Ok(())
        })
    }
}

impl Timed for MarkCandidates {
    /// The Rust has no such call: its side is the rule written plainly, without tests.
    fn bare(input: &MarksInput) -> Call<'_> {
        let given = Given::of(input).expect("the right lengths");
        call(given, |given, outputs| {
            let rests = given.rests().map(|rest| rest as i64);
            let points = given.points() as i64;
            marks_by_pairs(rests, points, &given.ranges, &mut outputs.slices[0]);
        })
    }
}

#[cfg(test)]
mod tests {
    use phonors::common::IDENTITY;

    use super::*;
    use crate::corners::{corners, lengths, marks, BEATEN, NEAREST, OPEN};
    use crate::function::Input;
    use crate::inputs::lent_marks::CUBE;
    use crate::random::Random;
    use crate::{compare, vectors};

    /// The answer, and the marks.
    fn asked(input: &MarksInput) -> (i64, Vec<i64>) {
        let mut outputs = MarkCandidates::outputs(input).unlike();
        let answer = MarkCandidates::oracle(input, &mut outputs);
        (answer, outputs.slices.swap_remove(0))
    }

    #[test]
    fn the_examples_of_the_readings() {
        let input = |ranges| MarksInput::new([2, 1, 1], IDENTITY, [0; 3], ranges, 1);
        let (answer, cube) = asked(&input([CUBE; 2]));
        assert_eq!((answer, cube[0], cube[25]), (0, NEAREST, NEAREST));
        assert_eq!(cube.iter().filter(|&&mark| mark == BEATEN).count(), 123);
        let wide = [[1, -1, 0, 1, 0, 1], [3, 1, 0, 2, 0, 2]];
        let (answer, wide) = asked(&input(wide));
        assert_eq!((answer, wide[5], wide[1]), (0, OPEN, BEATEN));
        assert_eq!(asked(&input([[0; 6]; 2])), (0, vec![NEAREST; 125]));
    }

    /// 13 for each slice, 3, 20, 10, each before those that would follow it.
    #[test]
    fn the_order_of_the_refusals() {
        let doubled = [[2, 0, 0], [0, 1, 0], [0, 0, 1]];
        let crossed = [[1, 0, 0, 1, 0, 2], CUBE];
        let mut input = MarksInput::new([0; 3], doubled, [0; 3], crossed, 0);
        for short in 0..5 {
            let mut input = input.clone();
            match short {
                0 => input.d.pop(),
                1 => input.q.pop(),
                2 => input.ps.pop(),
                3 => input.lowest.pop(),
                _ => input.highest.pop(),
            };
            assert_eq!(asked(&input), (13, vec![-1; 125]));
        }
        let mut outputs = Outputs::slices(&[124], 0);
        assert_eq!(MarkCandidates::oracle(&input, &mut outputs), 13);
        assert_eq!(asked(&input), (3, vec![-1; 125]));
        input.d = vec![1; 3];
        assert_eq!(asked(&input), (20, vec![-1; 125]));
        input.highest[5] = 2;
        assert_eq!(asked(&input), (10, vec![-1; 125]));
        input.q[0] = 1;
        assert_eq!(asked(&input).0, 0);
    }

    #[test]
    fn every_answer_is_met() {
        let mut random = Random::new(1);
        let mut answers = Vec::new();
        let mut counts = [0; 3];
        for _ in 0..2_000 {
            let (answer, marks) = asked(&MarksInput::random(&mut random));
            answers.push(answer);
            if answer == 0 {
                for mark in [OPEN, NEAREST, BEATEN] {
                    counts[mark as usize] += usize::from(marks.contains(&mark));
                }
            }
        }
        for (answer, least) in [(0, 1_300), (3, 80), (10, 15), (13, 60), (20, 25)] {
            let count = answers.iter().filter(|&&met| met == answer).count();
            assert!(count > least, "{answer}: {count}");
        }
        assert!(counts.iter().all(|&count| count > 300), "{counts:?}");
    }

    /// A wrong port, by its marks of accepted ins.
    trait Fault {
        fn marks(given: &Given) -> Vec<i64>;
    }

    struct Faulty<F>(std::marker::PhantomData<F>);

    impl<F: Fault> Function for Faulty<F> {
        type Input = MarksInput;

        fn outputs(input: &MarksInput) -> Outputs {
            MarkCandidates::outputs(input)
        }

        fn port(input: &MarksInput, outputs: &mut Outputs) -> i64 {
            let answer = MarkCandidates::oracle(input, outputs);
            if answer == 0 {
                let given = Given::of(input).expect("accepted");
                outputs.slices[0].copy_from_slice(&F::marks(&given));
            }
            answer
        }

        fn oracle(input: &MarksInput, outputs: &mut Outputs) -> i64 {
            MarkCandidates::oracle(input, outputs)
        }
    }

    /// An off-diagonal product counted once: the others counted twice have the same order.
    struct Once;

    impl Fault for Once {
        fn marks(given: &Given) -> Vec<i64> {
            let factors = [2, 1, 1, 2, 1, 2];
            let ranges = given
                .ranges
                .map(|end| [0, 1, 2, 3, 4, 5].map(|k| factors[k] * end[k]));
            let lengths = lengths(given.rests(), given.points(), &corners(ranges));
            marks(&lengths, i128::lt)
        }
    }

    /// A tie taken for beaten.
    struct Tied;

    impl Fault for Tied {
        fn marks(given: &Given) -> Vec<i64> {
            let corners = corners(given.ranges);
            let lengths = lengths(given.rests(), given.points(), &corners);
            marks(&lengths, i128::le)
        }
    }

    /// All lowest and all highest numbers only.
    struct TwoEnds;

    impl Fault for TwoEnds {
        fn marks(given: &Given) -> Vec<i64> {
            let lengths = lengths(given.rests(), given.points(), &given.ranges);
            marks(&lengths, i128::lt)
        }
    }

    /// Halves toward zero.
    struct Inwards;

    impl Fault for Inwards {
        fn marks(given: &Given) -> Vec<i64> {
            let n = given.points();
            let inwards = |x: i128| x - 2 * n * ((x.abs() + n - 1) / (2 * n) * x.signum());
            let lengths = lengths(given.coordinates().map(inwards), n, &corners(given.ranges));
            marks(&lengths, i128::lt)
        }
    }

    /// Beaten where at each corner some other is shorter, though not one for all.
    struct BySeveral;

    impl Fault for BySeveral {
        fn marks(given: &Given) -> Vec<i64> {
            let corners = corners(given.ranges);
            let lengths = lengths(given.rests(), given.points(), &corners);
            let least = |k: usize| lengths.iter().map(|length| length[k]).min();
            let least: Vec<Option<i128>> = (0..corners.len()).map(least).collect();
            let beaten = |length: &Vec<i128>| (0..).zip(length).all(|(k, x)| least[k] < Some(*x));
            let right = marks(&lengths, i128::lt).into_iter().zip(&lengths);
            right
                .map(|(mark, length)| if beaten(length) { BEATEN } else { mark })
                .collect()
        }
    }

    #[test]
    fn wrong_ports_are_told() {
        let cases = MarksInput::at_limits().len() as u64;
        let differences = [
            compare::run::<Faulty<Once>>(cases, 1),
            compare::run::<Faulty<Tied>>(cases, 1),
            compare::run::<Faulty<TwoEnds>>(cases, 1),
            compare::run::<Faulty<Inwards>>(cases, 1),
            compare::run::<Faulty<BySeveral>>(cases, 1),
        ];
        assert!(
            differences.iter().all(|&count| count > 0),
            "{differences:?}"
        );
    }

    /// What the bench takes is accepted; nearly all is certain, or nothing.
    #[test]
    fn typical_marks() {
        let mut random = Random::new(1);
        for _ in 0..64 {
            let (answer, marks) = asked(&MarksInput::typical(&mut random));
            assert!(answer == 0 && marks.contains(&BEATEN));
            assert_eq!(asked(&MarksInput::open(&mut random)), (0, vec![OPEN; 125]));
        }
    }

    #[test]
    fn vectors_of_every_answer() {
        let lines = vectors::lines::<MarkCandidates>(1);
        vectors::text(1, &lines);
        let inputs = MarksInput::at_limits();
        assert!(lines.len() > inputs.len());
        let met: Vec<i64> = inputs.iter().map(|input| asked(input).0).collect();
        for (answer, least) in [(0, 60), (3, 30), (10, 4), (13, 10), (20, 6)] {
            let count = met.iter().filter(|&&met| met == answer).count();
            assert!(count >= least, "{answer}: {count}");
        }
    }
}
