//! The reciprocal call of the chain: document 02's test of the list as it is given,
//! and then the Rust's `reciprocal_rotations`.

use phonors::common::{MatI, IDENTITY, INVERSION};
use phonors::recip_rotations::reciprocal_rotations;

use crate::bench::{call, Call, Timed};
use crate::function::{Function, Input, Line, Outputs};
use crate::inputs::groups::{
    self, closure, failures, flat, half_a_group, shears, CUBIC, FOURFOLD, HEXAGONAL, THREEFOLD,
};
use crate::limits::{RECIPROCAL_ROTATIONS, ROTATION_ENTRY};
use crate::port;
use crate::random::Random;
use crate::recip_rotations::{answer, number, PLACES};
use crate::tests::{group, matrices};

#[derive(Clone, Debug)]
pub struct GroupInput {
    pub rotations: Vec<i64>,
    pub time_reversal: bool,
}

impl Input for GroupInput {
    fn at_limits() -> Vec<GroupInput> {
        let lent = groups::lent_at_limits().into_iter();
        let mut inputs: Vec<GroupInput> = lent
            .map(|rotations| GroupInput {
                rotations,
                time_reversal: false,
            })
            .collect();
        let mut push = |list: &[MatI], flags: &[bool]| {
            inputs.extend(flags.iter().map(|&time_reversal| GroupInput {
                rotations: flat(list),
                time_reversal,
            }));
        };
        for list in &failures()[1..] {
            push(list, &[false]);
        }
        push(&half_a_group(), &[false, true]);
        // One more than the call holds, and than it can join negatives to.
        push(&shears(RECIPROCAL_ROTATIONS + 1), &[false, true]);
        push(&shears(RECIPROCAL_ROTATIONS / 2 + 1), &[true]);
        // The identity last; and a group that time reversal makes twice as large.
        let mut turned = closure(&[FOURFOLD]);
        turned.reverse();
        let proper = closure(&[FOURFOLD, THREEFOLD]);
        for group in [
            &[IDENTITY][..],
            &[IDENTITY, INVERSION],
            &turned,
            &proper,
            &CUBIC,
        ] {
            push(group, &[false, true]);
        }
        push(&HEXAGONAL, &[true]);
        inputs
    }

    /// Groups in any order and any basis, also with a member dropped, repeated or
    /// changed, with cosets of theirs, and any lists.
    fn random(random: &mut Random) -> GroupInput {
        let size = random.pick(&[1, 10, 100, ROTATION_ENTRY]);
        let mut list = groups::group(random, size);
        random.shuffle(&mut list);
        let list = match random.below(20) {
            0..=5 => groups::damaged(random, list, size),
            6 => groups::cosets(random, &list, size),
            7 => groups::list(random, size),
            _ => list,
        };
        GroupInput {
            rotations: groups::lent_list(random, &list),
            time_reversal: random.coin(),
        }
    }

    /// The order matters to the time that the test takes.
    fn typical(random: &mut Random) -> GroupInput {
        let mut list = CUBIC.clone();
        random.shuffle(&mut list);
        GroupInput {
            rotations: flat(&list),
            time_reversal: random.coin(),
        }
    }

    fn write(&self, line: &mut Line) {
        line.slice(&self.rotations);
        line.number(self.time_reversal.into());
    }
}

pub struct ReciprocalGroup;

impl Function for ReciprocalGroup {
    type Input = GroupInput;

    fn outputs(_: &GroupInput) -> Outputs {
        Outputs::slices(&[PLACES], 1)
    }

    fn port(input: &GroupInput, outputs: &mut Outputs) -> i64 {
        let Outputs { slices, told } = outputs;
        port::answer(zone::reciprocal_group(
            &input.rotations,
            input.time_reversal,
            &mut slices[0],
            told,
        ))
    }

    fn oracle(input: &GroupInput, outputs: &mut Outputs) -> i64 {
        answer(&input.rotations, outputs, |rotations| {
            group(rotations)?;
            reciprocal_rotations(rotations, input.time_reversal).map_err(number)
        })
    }
}

impl Timed for ReciprocalGroup {
    /// The Rust has no such test.
    fn bare(input: &GroupInput) -> Call<'_> {
        let rotations = matrices(&input.rotations).expect("matrices");
        call((rotations, input.time_reversal), |(rotations, flag), _| {
            reciprocal_rotations(rotations, *flag)
        })
    }
}

#[cfg(test)]
mod tests {
    use phonors::common::negate_i;

    use super::*;
    use crate::compare;
    use crate::demand::CONDITIONS;
    use crate::refusals::NOT_GROUP;

    /// The Rust's answer, and the count that it tells.
    fn asked(rotations: Vec<i64>, time_reversal: bool) -> (i64, i64) {
        let input = GroupInput {
            rotations,
            time_reversal,
        };
        let mut outputs = ReciprocalGroup::outputs(&input).unlike();
        let answer = ReciprocalGroup::oracle(&input, &mut outputs);
        (answer, outputs.told[0])
    }

    #[test]
    fn each_failure_alone() {
        for (k, list) in failures().iter().enumerate() {
            let held = CONDITIONS.map(|holds| holds(list));
            let others = (0..4).filter(|&other| other != k);
            assert!(!held[k] && others.clone().all(|other| held[other]), "{k}");
            assert_eq!(asked(flat(list), false), (18, -1));
        }
    }

    #[test]
    fn the_list_as_it_is_given() {
        let half = half_a_group();
        assert_eq!(asked(flat(&half), true), (18, -1));
        let joined: Vec<MatI> = half.iter().flat_map(|m| [*m, negate_i(m)]).collect();
        assert_eq!(asked(flat(&joined), true), (0, 6));
        assert_eq!(asked(flat(&closure(&[THREEFOLD])), true), (0, 6));
        assert_eq!(asked(flat(&closure(&[FOURFOLD, THREEFOLD])), true), (0, 48));
    }

    /// After 13 and 3, before 7 and 8.
    #[test]
    fn the_order_of_the_refusals() {
        assert_eq!(asked(vec![1; 8], false), (13, -1));
        assert_eq!(asked(vec![ROTATION_ENTRY + 1; 9], false), (3, -1));
        assert_eq!(asked(vec![0; 9 * 193], false), (3, -1));
        for (count, time_reversal, plain) in [(49, false, 7), (49, true, 7), (25, true, 8)] {
            let list = shears(count);
            let refused = reciprocal_rotations(&list, time_reversal).map_err(number);
            assert_eq!(refused, Err(plain));
            assert_eq!(asked(flat(&list), time_reversal), (18, -1));
        }
    }

    /// Groups of every order, and nothing but 18 for the others: neither 7 nor 8.
    #[test]
    fn every_answer_is_met() {
        let mut random = Random::new(1);
        let mut met = Vec::new();
        for _ in 0..4_000 {
            let input = GroupInput::random(&mut random);
            met.push(asked(input.rotations, input.time_reversal));
        }
        let count = |wanted| met.iter().filter(|(answer, _)| *answer == wanted).count();
        for (answer, least) in [(0, 2_400), (3, 40), (13, 40), (18, 700)] {
            assert!(count(answer) > least, "{answer}: {}", count(answer));
        }
        assert_eq!(count(7) + count(8), 0);
        for order in [1, 2, 3, 4, 6, 8, 12, 16, 24, 48] {
            assert!(met.contains(&(0, order)), "{order}");
        }
    }

    /// A port that leaves one of the four conditions out.
    struct Without<const CONDITION: usize>;

    impl<const CONDITION: usize> Function for Without<CONDITION> {
        type Input = GroupInput;

        fn outputs(input: &GroupInput) -> Outputs {
            ReciprocalGroup::outputs(input)
        }

        fn port(input: &GroupInput, outputs: &mut Outputs) -> i64 {
            answer(&input.rotations, outputs, |rotations| {
                for (k, holds) in CONDITIONS.iter().enumerate() {
                    if k != CONDITION && !holds(rotations) {
                        return Err(NOT_GROUP);
                    }
                }
                reciprocal_rotations(rotations, input.time_reversal).map_err(number)
            })
        }

        fn oracle(input: &GroupInput, outputs: &mut Outputs) -> i64 {
            ReciprocalGroup::oracle(input, outputs)
        }
    }

    /// A port that tests the list that it returns.
    struct Returned;

    impl Function for Returned {
        type Input = GroupInput;

        fn outputs(input: &GroupInput) -> Outputs {
            ReciprocalGroup::outputs(input)
        }

        fn port(input: &GroupInput, outputs: &mut Outputs) -> i64 {
            answer(&input.rotations, outputs, |rotations| {
                let list = reciprocal_rotations(rotations, input.time_reversal);
                let list = list.map_err(number)?;
                group(&list).map(|()| list)
            })
        }

        fn oracle(input: &GroupInput, outputs: &mut Outputs) -> i64 {
            ReciprocalGroup::oracle(input, outputs)
        }
    }

    #[test]
    fn wrong_ports_are_told() {
        let cases = GroupInput::at_limits().len() as u64;
        let differences = [
            compare::run::<Without<0>>(cases, 1),
            compare::run::<Without<1>>(cases, 1),
            compare::run::<Without<2>>(cases, 1),
            compare::run::<Without<3>>(cases, 1),
            compare::run::<Returned>(cases, 1),
        ];
        assert!(
            differences.iter().all(|&count| count > 0),
            "{differences:?}"
        );
    }
}
