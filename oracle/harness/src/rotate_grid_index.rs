//! The rotation of a point: the index of the address that it is carried to, and the cell
//! of that address, which the Rust does not tell.

use phonors::common::{MatI, Vec3I, IDENTITY};
use phonors::{grgrid_halved, grgrid_opened};

use crate::bench::{call, Call, Timed};
use crate::function::{Function, Input, Line, Outputs};
use crate::grid_index_from_address::{cell, folded};
use crate::inputs::groups::{CUBIC, HEXAGONAL};
use crate::inputs::lent_transforms::EXCHANGE;
use crate::inputs::matrices::{self, diag, is_within};
use crate::inputs::{grids, lent};
use crate::limits::ROTATION_ENTRY;
use crate::panics::counted;
use crate::port;
use crate::random::Random;
use crate::tests::{fixed, length, limit, matrix, points, shift_fits};

#[derive(Clone, Debug)]
pub struct PointInput {
    point: i64,
    rotation: Vec<i64>,
    d: Vec<i64>,
    ps: Vec<i64>,
}

impl PointInput {
    pub fn new(point: i64, rotation: MatI, d: Vec3I, ps: Vec3I) -> PointInput {
        PointInput {
            point,
            rotation: rotation.as_flattened().to_vec(),
            d: d.to_vec(),
            ps: ps.to_vec(),
        }
    }
}

impl Input for PointInput {
    fn at_limits() -> Vec<PointInput> {
        let [most, least] = [ROTATION_ENTRY, -ROTATION_ENTRY];
        let mut inputs = Vec::new();
        // Rotations of each point of small grids, with the shift and without.
        let rotations = [
            diag([-1, -1, 1]),
            EXCHANGE,
            [[0, -1, 0], [1, -1, 0], [0, 0, 1]],
            [[1, -1, 0], [1, 0, 2], [0, 1, 1]],
            diag([most, least, 3]),
        ];
        for rotation in rotations {
            for (d, ps) in [
                ([2, 2, 1], [1, 0, 0]),
                ([1, 3, 2], [0, 1, 1]),
                ([2, 1, 3], [0; 3]),
            ] {
                let last: i64 = d.iter().product::<i64>() - 1;
                for point in [0, 1, last / 2 + 1, last] {
                    inputs.push(PointInput::new(point, rotation, d, ps));
                }
            }
        }
        // The farthest addresses.
        for (d, rotation) in [
            ([256, 256, 1], [[most; 3]; 3]),
            ([256, 1, 256], [[least; 3]; 3]),
            ([1, 256, 256], [[most; 3], [least; 3], [most, least, most]]),
        ] {
            for point in [0, 65_535] {
                inputs.push(PointInput::new(point, rotation, d, [1; 3]));
            }
        }
        for d in grids::AT_LIMITS {
            inputs.push(PointInput::new(0, IDENTITY, d, [0; 3]));
        }
        let plain = PointInput::new(5, IDENTITY, [1, 2, 3], [1, 0, 1]);
        for place in 0..9 {
            let mut input = plain.clone();
            input.rotation[place] = [most + 1, least - 1, i64::MIN][place % 3];
            inputs.push(input);
        }
        for ps in [[2, 0, 0], [0, -1, 0], [0, 0, i64::MIN]] {
            let ps = ps.to_vec();
            inputs.push(PointInput {
                ps,
                ..plain.clone()
            });
        }
        for point in [-1, 6, i64::MIN, i64::MAX] {
            inputs.push(PointInput {
                point,
                ..plain.clone()
            });
        }
        // 13 before 3.
        let outside = PointInput::new(-1, [[most + 1; 3]; 3], [0; 3], [2; 3]);
        inputs.push(outside.clone());
        for by in [0, 1, 2] {
            let resized = |length: usize| vec![0; [0, length - 1, length + 1][by]];
            let changes: [&dyn Fn(&mut PointInput); 3] = [
                &|input| input.rotation = resized(9),
                &|input| input.d = resized(3),
                &|input| input.ps = resized(3),
            ];
            for change in changes {
                for mut input in [plain.clone(), outside.clone()] {
                    change(&mut input);
                    inputs.push(input);
                }
            }
        }
        inputs
    }

    fn random(random: &mut Random) -> PointInput {
        let d = match random.below(20) {
            0 => grids::damaged_diagonal(random),
            _ => grids::diagonal(random),
        };
        let ps = match random.below(20) {
            0 => grids::damaged_shift(random),
            _ => grids::shift(random),
        };
        let last = points(d).map_or(0, |points| points as i64 - 1);
        let point = match random.below(20) {
            0 => random.pick(&[-1, last + 1, i64::MIN, i64::MAX]),
            1 => last,
            _ => random.between(0, last),
        };
        let size = random.pick(&[1, 2, 10, ROTATION_ENTRY]);
        let mut rotation = match random.below(4) {
            0 => random.pick(&CUBIC),
            1 => random.pick(&HEXAGONAL),
            _ => matrices::entries(random, size),
        };
        if random.one_in(20) {
            rotation = matrices::damaged(random, rotation, ROTATION_ENTRY);
        }
        PointInput {
            point,
            rotation: lent::fixed(random, rotation.as_flattened()),
            d: lent::fixed(random, &d),
            ps: lent::fixed(random, &ps),
        }
    }

    fn typical(random: &mut Random) -> PointInput {
        let point = random.between(0, 63_999);
        PointInput::new(point, random.pick(&CUBIC), [40; 3], grids::shift(random))
    }

    fn write(&self, line: &mut Line) {
        line.number(self.point);
        line.slice(&self.rotation);
        line.slice(&self.d);
        line.slice(&self.ps);
    }
}

/// A call whose lengths are right.
struct Given {
    point: i64,
    rotation: MatI,
    d: Vec3I,
    ps: Vec3I,
}

impl Given {
    fn of(input: &PointInput) -> Result<Given, i64> {
        Ok(Given {
            point: input.point,
            rotation: matrix(&input.rotation)?,
            d: fixed(&input.d)?,
            ps: fixed(&input.ps)?,
        })
    }

    fn limits(&self) -> Result<(), i64> {
        let points = points(self.d)? as i64;
        limit(shift_fits(self.ps))?;
        limit(is_within(&self.rotation, ROTATION_ENTRY))?;
        limit((0..points).contains(&self.point))
    }

    fn index(&self) -> i64 {
        grgrid_opened::rotate_grid_index(self.point, self.rotation, self.d, self.ps)
    }

    /// The address that the Rust carries the point to, on the way to the same index.
    fn carried(&self) -> Result<(i64, Vec3I), i64> {
        let mut halved = [0; 3];
        let index = counted(|| {
            let (point, rotation) = (self.point, self.rotation);
            grgrid_halved::rotate_grid_index(point, rotation, self.d, self.ps, &mut halved)
        })?;
        assert_eq!(counted(|| self.index()), Ok(index));
        Ok((index, halved))
    }
}

/// A line of the vectors: the point; the slices rotation, d and ps, each as its length and
/// its items; the answer; the index and the three quotients.
pub struct RotateGridIndex;

impl Function for RotateGridIndex {
    const VECTORS: usize = 256;

    type Input = PointInput;

    fn outputs(_: &PointInput) -> Outputs {
        Outputs::told(4)
    }

    fn port(input: &PointInput, outputs: &mut Outputs) -> i64 {
        let told = &mut outputs.told;
        port::answer(zone::rotate_grid_index(
            input.point,
            &input.rotation,
            &input.d,
            &input.ps,
            told,
        ))
    }

    fn oracle(input: &PointInput, outputs: &mut Outputs) -> i64 {
        outputs.answer(|_, told| {
            length(told.len() == 4)?;
            let given = Given::of(input)?;
            given.limits()?;
            let (index, address) = given.carried()?;
            told.copy_from_slice(&folded(index, cell(address, given.d)));
            Ok(())
        })
    }
}

impl Timed for RotateGridIndex {
    /// The Rust has the index alone.
    fn bare(input: &PointInput) -> Call<'_> {
        let given = Given::of(input).expect("right lengths");
        call(given, |given, _| given.index())
    }
}

#[cfg(test)]
mod tests {
    use super::*;
    use crate::compare;
    use crate::refusals::ACCEPTED;

    fn asked(input: &PointInput) -> (i64, Vec<i64>) {
        let mut outputs = RotateGridIndex::outputs(input).unlike();
        let answer = RotateGridIndex::oracle(input, &mut outputs);
        (answer, outputs.told)
    }

    /// Halving downwards would tell the cell -1, and the point 1.
    #[test]
    fn halving_goes_toward_zero() {
        let told = |point, rotation| {
            let input = PointInput::new(point, rotation, [2, 2, 1], [1, 0, 0]);
            asked(&input)
        };
        assert_eq!(told(0, EXCHANGE), (0, vec![0; 4]));
        assert_eq!(told(1, EXCHANGE), (0, vec![2, 0, 0, 0]));
        assert_eq!(told(0, diag([-1, 1, 1])), (0, vec![1, -1, 0, 0]));
        assert_eq!(told(3, diag([-1, -1, 1])), (0, vec![2, -1, -1, 0]));
    }

    /// Each refusal before those that would follow it.
    #[test]
    fn the_order_of_the_refusals() {
        let mut input = PointInput {
            point: 2,
            rotation: vec![100_001; 8],
            d: vec![0; 4],
            ps: vec![2; 2],
        };
        let mut expect = |number, change: &dyn Fn(&mut PointInput)| {
            assert_eq!(asked(&input), (number, vec![-1; 4]));
            change(&mut input);
        };
        expect(13, &|input| input.rotation.push(100_001));
        expect(13, &|input| input.d.truncate(3));
        expect(13, &|input| input.ps.push(2));
        expect(3, &|input| input.d = vec![2, 1, 1]);
        expect(3, &|input| input.ps.fill(0));
        expect(3, &|input| input.rotation = vec![-100_000; 9]);
        expect(3, &|input| input.point = 1);
        assert_eq!(asked(&input), (0, vec![0, -50_000, -100_000, -100_000]));
        input.d = vec![0; 3];
        for places in [0, 3, 5] {
            let mut outputs = Outputs::told(places);
            assert_eq!(RotateGridIndex::oracle(&input, &mut outputs), 13);
            assert_eq!(outputs.told, vec![-1; places]);
        }
    }

    /// Of the answers, whether the carried address lies in another cell, and before 0.
    #[test]
    fn every_kind_is_met() {
        let mut random = Random::new(1);
        let mut met = Vec::new();
        for _ in 0..5_000 {
            let (answer, told) = asked(&PointInput::random(&mut random));
            let cell = &told[1..];
            let accepted = answer == ACCEPTED;
            met.push((
                answer,
                accepted && cell != [0; 3],
                accepted && cell.iter().any(|&number| number < 0),
            ));
        }
        for (kind, least) in [
            ((0, false, false), 300),
            ((0, true, false), 300),
            ((0, true, true), 1_000),
            ((3, false, false), 300),
            ((13, false, false), 50),
        ] {
            let count = met.iter().filter(|&&met| met == kind).count();
            assert!(count > least, "{kind:?}: {count}");
        }
    }

    /// Halves downwards, and tells what that address folds to.
    struct Downwards;

    impl Function for Downwards {
        type Input = PointInput;

        fn outputs(input: &PointInput) -> Outputs {
            RotateGridIndex::outputs(input)
        }

        fn port(input: &PointInput, outputs: &mut Outputs) -> i64 {
            let answer = RotateGridIndex::oracle(input, outputs);
            if answer != ACCEPTED {
                return answer;
            }
            let Given {
                point,
                rotation,
                d,
                ps,
            } = Given::of(input).unwrap();
            let own = [point % d[0], point / d[0] % d[1], point / (d[0] * d[1])];
            let turned = |i: usize| (0..3).map(|k| rotation[i][k] * (2 * own[k] + ps[k])).sum();
            let halved = [0, 1, 2].map(|i| {
                let turned: i64 = turned(i);
                (turned - ps[i]).div_euclid(2)
            });
            let index = phonors::grgrid::grid_index_from_address(halved, d);
            outputs.told = folded(index, cell(halved, d)).to_vec();
            answer
        }

        fn oracle(input: &PointInput, outputs: &mut Outputs) -> i64 {
            RotateGridIndex::oracle(input, outputs)
        }
    }

    /// Also by the vectors.
    #[test]
    fn a_wrong_halving_is_a_difference() {
        let cases = PointInput::at_limits().len() as u64;
        assert!(compare::run::<Downwards>(cases, 1) > 10);
        let differences = compare::run::<Downwards>(1_000, 1);
        assert!((100..700).contains(&differences), "{differences}");
    }

    /// Rounds the quotients of negative numbers the wrong way.
    struct TowardZero;

    impl Function for TowardZero {
        type Input = PointInput;

        fn outputs(input: &PointInput) -> Outputs {
            RotateGridIndex::outputs(input)
        }

        fn port(input: &PointInput, outputs: &mut Outputs) -> i64 {
            let answer = RotateGridIndex::oracle(input, outputs);
            if answer == ACCEPTED {
                let given = Given::of(input).unwrap();
                let (index, address) = given.carried().unwrap();
                let cell = [0, 1, 2].map(|k| address[k] / given.d[k]);
                outputs.told = folded(index, cell).to_vec();
            }
            answer
        }

        fn oracle(input: &PointInput, outputs: &mut Outputs) -> i64 {
            RotateGridIndex::oracle(input, outputs)
        }
    }

    /// Also by the vectors.
    #[test]
    fn a_wrong_quotient_is_a_difference() {
        let cases = PointInput::at_limits().len() as u64;
        assert!(compare::run::<TowardZero>(cases, 1) > 20);
        let differences = compare::run::<TowardZero>(1_000, 1);
        assert!((200..700).contains(&differences), "{differences}");
    }
}
