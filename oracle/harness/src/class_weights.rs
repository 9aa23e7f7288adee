//! The weights of the classes, which the Rust does not tell: its class map, and a search
//! for the points that bear each number and for the rotations that keep a point.

use std::collections::BTreeMap;

use phonors::common::{MatI, Vec3I};
use phonors::grgrid::ir_grid_map;

use crate::bench::{call, Call, Timed};
use crate::function::{Function, Outputs};
use crate::grgrid::lent_points;
use crate::inputs::lent_weights::WeightsInput;
use crate::limits::{ROTATIONS, ROTATION_ENTRY};
use crate::panics::counted;
use crate::port;
use crate::tests::{fixed, length, limit, matrices, points, rotations_fit, shift_fits};

/// Where document 01 has a rotation carry a point: its address doubled with the shift,
/// turned, and halved toward zero without the shift.
fn carried(rotation: &MatI, d: Vec3I, ps: Vec3I, point: i64) -> i64 {
    let address = [point % d[0], point / d[0] % d[1], point / (d[0] * d[1])];
    let doubled = [0, 1, 2].map(|k| 2 * address[k] + ps[k]);
    let remainder = |i: usize| {
        let turned: i64 = (0..3).map(|k| rotation[i][k] * doubled[k]).sum();
        ((turned - ps[i]) / 2).rem_euclid(d[i])
    };
    (remainder(2) * d[1] + remainder(1)) * d[0] + remainder(0)
}

/// The places of the rotations that carry a point to itself.
fn keepers(rotations: &[MatI], d: Vec3I, ps: Vec3I, point: i64) -> Vec<i64> {
    let keeps = |(_, rotation): &(i64, &MatI)| carried(rotation, d, ps, point) == point;
    let places = (0..).zip(rotations).filter(keeps);
    places.map(|(place, _)| place).collect()
}

/// The points that bear each number of a class map, both rising.
fn members(map: &[i64]) -> BTreeMap<i64, Vec<i64>> {
    let mut classes: BTreeMap<i64, Vec<i64>> = BTreeMap::new();
    for (point, &number) in (0..).zip(map) {
        classes.entry(number).or_default().push(point);
    }
    classes
}

/// Writes numbers to the front of a slice; the rest holds -1.
fn put(slice: &mut [i64], numbers: impl IntoIterator<Item = i64>) {
    slice.fill(-1);
    let mut places = slice.iter_mut();
    for number in numbers {
        *places.next().expect("a place") = number;
    }
}

/// A line of the vectors: the slices rotations, d and ps, each as its length and its
/// items; the point; the answer; the outputs weights, members and keepers, each as its
/// length and its items, or its length and a sum if it has over 432 places; the number of
/// classes and of keepers.
pub struct ClassWeights;

impl Function for ClassWeights {
    const VECTORS: usize = 256;

    const HELD: &'static [usize] = &[8_192, 8_192, 256];

    type Input = WeightsInput;

    fn outputs(input: &WeightsInput) -> Outputs {
        let points = lent_points(&input.d);
        Outputs::slices(&[points, points, input.rotations.len() / 9], 2)
    }

    fn port(input: &WeightsInput, outputs: &mut Outputs) -> i64 {
        let Outputs { slices, told } = outputs;
        let [weights, members, keepers] = &mut slices[..] else {
            panic!("three slices");
        };
        port::answer(zone::class_weights(
            &input.rotations,
            &input.d,
            &input.ps,
            input.point,
            weights,
            members,
            keepers,
            told,
        ))
    }

    /// The length of `keepers` hangs on the number of rotations, and is not tested where
    /// these are too many; that of the others on d.
    fn oracle(input: &WeightsInput, outputs: &mut Outputs) -> i64 {
        outputs.answer(|slices, told| {
            let rotations = matrices(&input.rotations)?;
            let [d, ps] = [fixed(&input.d)?, fixed(&input.ps)?];
            length(told.len() == 2)?;
            length(rotations.len() > ROTATIONS || slices[2].len() == rotations.len())?;
            let points = points(d)?;
            length(slices[..2].iter().all(|slice| slice.len() == points))?;
            limit(shift_fits(ps) && rotations_fit(&rotations, ROTATION_ENTRY))?;
            limit((0..points as i64).contains(&input.point))?;
            let map = counted(|| ir_grid_map(&rotations, d, ps))?;
            let classes = members(&map.map);
            // A class has its lowest member's number, whatever the list.
            assert!(classes.iter().all(|(number, class)| class[0] == *number));
            assert_eq!(classes.len() as i64, map.num_ir);
            let keepers = keepers(&rotations, d, ps, input.point);
            told.copy_from_slice(&[map.num_ir, keepers.len() as i64]);
            let weights = classes.values().map(|class| class.len() as i64);
            put(&mut slices[0], weights);
            put(&mut slices[1], classes.into_values().flatten());
            put(&mut slices[2], keepers);
            Ok(())
        })
    }
}

impl Timed for ClassWeights {
    const INPUTS: usize = 8;

    /// The Rust has no such call: its side is the class map alone.
    fn bare(input: &WeightsInput) -> Call<'_> {
        let rotations = matrices(&input.rotations).expect("matrices");
        let [d, ps] = [&input.d, &input.ps].map(|slice| fixed(slice).expect("three"));
        call((rotations, d, ps), |(rotations, d, ps), _| {
            ir_grid_map(rotations, *d, *ps)
        })
    }
}

#[cfg(test)]
mod tests {
    use phonors::common::{IDENTITY, INVERSION};

    use super::*;
    use crate::demand::is_group;
    use crate::function::Input;
    use crate::inputs::groups::closure;
    use crate::inputs::lent_transforms::EXCHANGE;
    use crate::inputs::lent_weights::ODD_TURN;
    use crate::inputs::transforms;
    use crate::random::Random;
    use crate::{compare, vectors};

    /// The answer, and the outputs.
    fn asked(input: &WeightsInput) -> (i64, Outputs) {
        let mut outputs = ClassWeights::outputs(input).unlike();
        (ClassWeights::oracle(input, &mut outputs), outputs)
    }

    fn accepted(list: &[MatI], d: Vec3I, ps: Vec3I, point: i64) -> (Vec<Vec<i64>>, Vec<i64>) {
        let (answer, outputs) = asked(&WeightsInput::new(list, d, ps, point));
        assert_eq!(answer, 0);
        (outputs.slices, outputs.told)
    }

    /// The weight of the point's class.
    fn weight(outputs: &Outputs, point: i64) -> i64 {
        let mut members = outputs.slices[1].iter();
        let weights = outputs.slices[0].iter().take_while(|&&weight| weight > 0);
        let found = weights.copied().find(|&weight| {
            let class: Vec<&i64> = members.by_ref().take(weight as usize).collect();
            class.contains(&&point)
        });
        found.expect("a class")
    }

    /// The exchange with an odd shift takes 0 1 2 3 to 0 2 0 2, with an even one to
    /// 0 2 1 3.
    #[test]
    fn the_exchange() {
        let pair = [IDENTITY, EXCHANGE];
        let (slices, told) = accepted(&pair, [2, 2, 1], [1, 0, 0], 0);
        assert_eq!(slices[0], [3, 1, -1, -1]);
        assert_eq!(slices[1], [0, 2, 3, 1]);
        assert_eq!((&slices[2][..], told), (&[0, 1][..], vec![2, 2]));
        let (slices, told) = accepted(&pair, [2, 2, 1], [1, 1, 0], 1);
        assert_eq!(slices[0], [1, 2, 1, -1]);
        assert_eq!(slices[1], [0, 1, 2, 3]);
        assert_eq!((&slices[2][..], told), (&[0, -1][..], vec![3, 1]));
    }

    /// Permutations all three, and still no action: a weight of 2 and 2 keepers of 3.
    #[test]
    fn an_odd_turn() {
        let list = closure(&[ODD_TURN]);
        let (slices, told) = accepted(&list, [1, 1, 2], [1, 0, 0], 1);
        assert_eq!(list.len(), 3);
        assert_eq!((&slices[0][..], told), (&[2, -1][..], vec![1, 2]));
    }

    #[test]
    fn repeats_and_no_rotations() {
        let twice = [INVERSION, IDENTITY, INVERSION, IDENTITY];
        let (slices, told) = accepted(&twice, [1, 1, 3], [0; 3], 1);
        assert_eq!(slices, [vec![1, 2, -1], vec![0, 1, 2], vec![1, 3, -1, -1]]);
        assert_eq!(told, [2, 2]);
        let (slices, told) = accepted(&[], [1, 1, 3], [0; 3], 1);
        assert_eq!(slices, [vec![1, 1, 1], vec![0, 1, 2], vec![]]);
        assert_eq!(told, [3, 0]);
    }

    /// Each refusal before those that would follow it.
    #[test]
    fn the_order_of_the_refusals() {
        let mut input = WeightsInput {
            rotations: vec![100_001; 10],
            d: vec![0; 2],
            ps: vec![2; 4],
            point: -1,
        };
        let mut places = [1, 2, 5, 3];
        let mut expect = |number, change: &dyn Fn(&mut WeightsInput, &mut [usize; 4])| {
            let [weights, members, keepers, told] = places;
            let mut outputs = Outputs::slices(&[weights, members, keepers], told);
            assert_eq!(ClassWeights::oracle(&input, &mut outputs), number);
            if number != 0 {
                let all = outputs.slices.iter().chain([&outputs.told]).flatten();
                assert!(all.into_iter().all(|&place| place == -1));
            }
            change(&mut input, &mut places);
        };
        expect(13, &|input, _| input.rotations = vec![100_001; 9]);
        expect(13, &|input, _| input.d = vec![0; 3]);
        expect(13, &|input, _| input.ps = vec![2; 3]);
        expect(13, &|_, places| places[3] = 2);
        expect(13, &|_, places| places[2] = 1);
        expect(3, &|input, _| input.d = vec![1, 2, 1]);
        expect(13, &|_, places| places[0] = 2);
        expect(3, &|input, _| input.ps = vec![0; 3]);
        expect(3, &|input, _| input.point = 2);
        expect(3, &|input, _| input.point = 1);
        expect(3, &|input, _| input.rotations = vec![100_000; 9]);
        expect(0, &|input, places| {
            input.rotations = vec![0; 9 * 193];
            places[2] = 7;
        });
        expect(3, &|input, _| input.d = vec![257, 1, 1]);
        expect(3, &|_, places| places[3] = 3);
        expect(13, &|_, _| {});
    }

    /// Of every list the weights add up to the points, which are the members, each once.
    /// Of a group on its grid that moves the shift by even numbers, a weight times the
    /// keepers is the length of the list; of others it need not be.
    #[test]
    fn the_rule() {
        let mut random = Random::new(1);
        let mut met = [[0; 2]; 2];
        for _ in 0..1_000 {
            let given = transforms::grid_group(&mut random);
            let input = WeightsInput::random(&mut random);
            let ps = [(); 3].map(|()| random.between(0, 1));
            let last = given.d.iter().product::<i64>() - 1;
            let grid = WeightsInput::new(&given.rotations, given.d, ps, random.between(0, last));
            assert!(is_group(&given.rotations));
            for (input, is_grid) in [(input, false), (grid, true)] {
                let (answer, outputs) = asked(&input);
                if answer != 0 {
                    continue;
                }
                let weights = outputs.slices[0].iter().filter(|&&weight| weight > 0);
                assert_eq!(weights.sum::<i64>(), outputs.slices[1].len() as i64);
                let mut members = outputs.slices[1].clone();
                members.sort();
                assert!((0..).zip(members).all(|(point, member)| point == member));
                if is_grid {
                    let moved = |m: &MatI, k: usize| (0..3).map(|j| m[k][j] * ps[j]).sum::<i64>();
                    let even = |m| (0..3).all(|k| (moved(m, k) - ps[k]) % 2 == 0);
                    let even = given.rotations.iter().all(even);
                    let product = weight(&outputs, input.point) * outputs.told[1];
                    let holds = product == given.rotations.len() as i64;
                    assert!(holds || !even);
                    met[usize::from(even)][usize::from(holds)] += 1;
                }
            }
        }
        assert!(met[1][1] > 300 && met[0][0] > 80, "{met:?}");
    }

    #[test]
    fn every_answer_is_met() {
        let mut random = Random::new(1);
        let mut met = Vec::new();
        for _ in 0..2_000 {
            let input = WeightsInput::random(&mut random);
            let (answer, outputs) = asked(&input);
            let [classes, keepers] = outputs.told[..] else {
                panic!("two counts");
            };
            let joined = answer == 0 && classes < outputs.slices[0].len() as i64;
            let left = answer == 0 && keepers < outputs.slices[2].len() as i64;
            met.push((answer, joined, left));
        }
        for (kind, least) in [
            ((0, true, true), 400),
            ((0, true, false), 100),
            ((0, false, false), 200),
            ((3, false, false), 80),
            ((13, false, false), 60),
        ] {
            let count = met.iter().filter(|&&met| met == kind).count();
            assert!(count > least, "{kind:?}: {count}");
        }
    }

    /// A wrong port: what it does to the right answer, in the slices and what is told.
    trait Fault {
        fn damage(input: &WeightsInput, outputs: &mut Outputs);
    }

    struct Faulty<F>(std::marker::PhantomData<F>);

    impl<F: Fault> Function for Faulty<F> {
        type Input = WeightsInput;

        fn outputs(input: &WeightsInput) -> Outputs {
            ClassWeights::outputs(input)
        }

        fn port(input: &WeightsInput, outputs: &mut Outputs) -> i64 {
            let answer = ClassWeights::oracle(input, outputs);
            if answer == 0 {
                F::damage(input, outputs);
            }
            answer
        }

        fn oracle(input: &WeightsInput, outputs: &mut Outputs) -> i64 {
            ClassWeights::oracle(input, outputs)
        }
    }

    /// The members of each class from the highest down.
    struct Falling;

    impl Fault for Falling {
        fn damage(_: &WeightsInput, outputs: &mut Outputs) {
            let [weights, members, _] = &mut outputs.slices[..] else {
                panic!("three slices");
            };
            let mut rest = &mut members[..];
            for weight in weights.iter().filter(|&&weight| weight > 0) {
                let (class, others) = rest.split_at_mut(*weight as usize);
                class.reverse();
                rest = others;
            }
        }
    }

    /// Keepers without the shift.
    struct Unshifted;

    impl Fault for Unshifted {
        fn damage(input: &WeightsInput, outputs: &mut Outputs) {
            let rotations = matrices(&input.rotations).expect("matrices");
            let d = fixed(&input.d).expect("three");
            let keepers = keepers(&rotations, d, [0; 3], input.point);
            outputs.told[1] = keepers.len() as i64;
            put(&mut outputs.slices[2], keepers);
        }
    }

    /// 0 for -1 where no weight stands.
    struct Zeros;

    impl Fault for Zeros {
        fn damage(_: &WeightsInput, outputs: &mut Outputs) {
            for weight in &mut outputs.slices[0] {
                *weight = (*weight).max(0);
            }
        }
    }

    /// Each rotation that keeps the point once.
    struct Once;

    impl Fault for Once {
        fn damage(input: &WeightsInput, outputs: &mut Outputs) {
            let list = matrices(&input.rotations).expect("matrices");
            let first = |&place: &i64| {
                let [before, from] = [&list[..place as usize], &list[place as usize..]];
                !before.contains(&from[0])
            };
            let kept = outputs.slices[2].iter().filter(|&&place| place >= 0);
            let kept: Vec<i64> = kept.copied().filter(first).collect();
            outputs.told[1] = kept.len() as i64;
            put(&mut outputs.slices[2], kept);
        }
    }

    #[test]
    fn wrong_ports_are_told() {
        let cases = WeightsInput::at_limits().len() as u64;
        let differences = [
            compare::run::<Faulty<Falling>>(cases, 1),
            compare::run::<Faulty<Unshifted>>(cases, 1),
            compare::run::<Faulty<Zeros>>(cases, 1),
            compare::run::<Faulty<Once>>(cases, 1),
        ];
        assert!(
            differences.iter().all(|&count| count > 0),
            "{differences:?}"
        );
    }

    #[test]
    fn vectors_of_every_answer() {
        let lines = vectors::lines::<ClassWeights>(1);
        vectors::text(1, &lines);
        let inputs = WeightsInput::at_limits();
        assert!(lines.len() > inputs.len());
        let met: Vec<i64> = inputs.iter().map(|input| asked(input).0).collect();
        for (answer, least) in [(0, 60), (3, 20), (13, 8)] {
            let count = met.iter().filter(|&&met| met == answer).count();
            assert!(count >= least, "{answer}: {count}");
        }
    }
}
