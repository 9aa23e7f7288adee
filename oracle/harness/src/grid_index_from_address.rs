//! What an address folds to: its index, and the cell that it lies in, which the Rust does
//! not tell.

use phonors::common::Vec3I;
use phonors::grgrid::grid_index_from_address;

use crate::bench::{call, Call, Timed};
use crate::function::{Function, Input, Line, Outputs};
use crate::inputs::numbers::number;
use crate::inputs::{grids, lent};
use crate::panics::counted;
use crate::port;
use crate::random::Random;
use crate::tests::{fixed, length, points};

/// The cell of an address: the quotients by d, rounded down.
pub fn cell(address: Vec3I, d: Vec3I) -> Vec3I {
    [0, 1, 2].map(|k| address[k].div_euclid(d[k]))
}

/// An index and a cell, as both calls tell them.
pub fn folded(index: i64, [x, y, z]: Vec3I) -> [i64; 4] {
    [index, x, y, z]
}

/// Numbers of an address on either side of 0, of a side and of the ends.
const NUMBERS: [i64; 19] = [
    i64::MIN,
    i64::MIN + 1,
    -1 << 40,
    -257,
    -256,
    -255,
    -5,
    -3,
    -2,
    -1,
    0,
    1,
    2,
    5,
    255,
    256,
    257,
    i64::MAX - 1,
    i64::MAX,
];

#[derive(Debug)]
pub struct FoldInput {
    address: Vec<i64>,
    d: Vec<i64>,
}

impl FoldInput {
    pub fn new(address: Vec3I, d: Vec3I) -> FoldInput {
        FoldInput {
            address: address.to_vec(),
            d: d.to_vec(),
        }
    }
}

impl Input for FoldInput {
    fn at_limits() -> Vec<FoldInput> {
        let mut inputs = Vec::new();
        for d in grids::AT_LIMITS {
            for address in [[-1, 0, 1], [i64::MAX, i64::MIN, -2]] {
                inputs.push(FoldInput::new(address, d));
            }
        }
        for d in [[1; 3], [2, 3, 5], [3, 256, 85]] {
            for (k, x) in NUMBERS.into_iter().enumerate() {
                let [y, z] = [7, 13].map(|step| NUMBERS[(k + step) % NUMBERS.len()]);
                inputs.push(FoldInput::new([x, y, z], d));
            }
        }
        // 13 before 3.
        for length in [0, 2, 4] {
            for d in [[2, 3, 5], [0; 3]] {
                inputs.push(FoldInput {
                    address: vec![-1; length],
                    d: d.to_vec(),
                });
            }
            inputs.push(FoldInput {
                address: vec![-1; 3],
                d: vec![length as i64 - 2; length],
            });
        }
        inputs
    }

    /// Numbers of any size, or next to a whole number of sides.
    fn random(random: &mut Random) -> FoldInput {
        let d = match random.below(10) {
            0 => grids::damaged_diagonal(random),
            _ => grids::diagonal(random),
        };
        let address = d.map(|side| match random.below(3) {
            0 => number(random),
            1 => random.within(1_000),
            _ => {
                let cells = number(random) >> random.below(64);
                cells.wrapping_mul(side).wrapping_add(random.within(1))
            }
        });
        FoldInput {
            address: lent::fixed(random, &address),
            d: lent::fixed(random, &d),
        }
    }

    fn typical(random: &mut Random) -> FoldInput {
        FoldInput::new([(); 3].map(|()| random.within(100)), [40; 3])
    }

    fn write(&self, line: &mut Line) {
        line.slice(&self.address);
        line.slice(&self.d);
    }
}

/// A line of the vectors: the slices address and d, each as its length and its items; the
/// answer; the index and the three quotients.
pub struct GridIndexFromAddress;

impl Function for GridIndexFromAddress {
    const VECTORS: usize = 192;

    type Input = FoldInput;

    fn outputs(_: &FoldInput) -> Outputs {
        Outputs::told(4)
    }

    fn port(input: &FoldInput, outputs: &mut Outputs) -> i64 {
        port::answer(zone::grid_index_from_address(
            &input.address,
            &input.d,
            &mut outputs.told,
        ))
    }

    fn oracle(input: &FoldInput, outputs: &mut Outputs) -> i64 {
        outputs.answer(|_, told| {
            let [address, d] = [fixed(&input.address)?, fixed(&input.d)?];
            length(told.len() == 4)?;
            points(d)?;
            let index = counted(|| grid_index_from_address(address, d))?;
            told.copy_from_slice(&folded(index, cell(address, d)));
            Ok(())
        })
    }
}

impl Timed for GridIndexFromAddress {
    /// The Rust has the index alone.
    fn bare(input: &FoldInput) -> Call<'_> {
        let ins = [&input.address, &input.d].map(|slice| fixed(slice).expect("three"));
        call(ins, |[address, d], _| grid_index_from_address(*address, *d))
    }
}

#[cfg(test)]
mod tests {
    use super::*;
    use crate::compare;
    use crate::refusals::ACCEPTED;

    fn asked(input: &FoldInput) -> (i64, Vec<i64>) {
        let mut outputs = GridIndexFromAddress::outputs(input).unlike();
        let answer = GridIndexFromAddress::oracle(input, &mut outputs);
        (answer, outputs.told)
    }

    #[test]
    fn addresses_of_a_small_grid() {
        let told = |address| asked(&FoldInput::new(address, [2, 3, 5]));
        assert_eq!(told([0; 3]), (0, vec![0; 4]));
        assert_eq!(told([1, 2, 4]), (0, vec![29, 0, 0, 0]));
        assert_eq!(told([2, 3, 5]), (0, vec![0, 1, 1, 1]));
        assert_eq!(told([-1; 3]), (0, vec![29, -1, -1, -1]));
        assert_eq!(told([-2, -3, -5]), (0, vec![0, -1, -1, -1]));
        assert_eq!(told([-3, 7, -11]), (0, vec![27, -2, 2, -3]));
        let half = 1 << 62;
        assert_eq!(told([i64::MIN, 0, 0]), (0, vec![0, -half, 0, 0]));
        assert_eq!(told([i64::MAX, 0, 0]), (0, vec![1, half - 1, 0, 0]));
    }

    /// Each refusal before those that would follow it.
    #[test]
    fn the_order_of_the_refusals() {
        let mut input = FoldInput {
            address: vec![i64::MIN; 4],
            d: vec![0; 2],
        };
        let refused = vec![-1; 4];
        assert_eq!(asked(&input), (13, refused.clone()));
        input.address.pop();
        assert_eq!(asked(&input), (13, refused.clone()));
        input.d.push(0);
        for places in [0, 3, 5] {
            let mut outputs = Outputs::told(places);
            assert_eq!(GridIndexFromAddress::oracle(&input, &mut outputs), 13);
            assert_eq!(outputs.told, vec![-1; places]);
        }
        assert_eq!(asked(&input), (3, refused.clone()));
        input.d = vec![256, 256, 2];
        assert_eq!(asked(&input), (3, refused));
        input.d = vec![256, 256, 1];
        assert_eq!(asked(&input).0, 0);
    }

    /// In 128 bits: cell times d, and the address of the index, make the address.
    #[test]
    fn index_and_cell_make_the_address() {
        let mut random = Random::new(1);
        let mut met = Vec::new();
        for _ in 0..5_000 {
            let input = FoldInput::random(&mut random);
            let (answer, told) = asked(&input);
            met.push(answer);
            if answer != ACCEPTED {
                continue;
            }
            let d: Vec3I = fixed(&input.d).unwrap();
            let own = [
                told[0] % d[0],
                told[0] / d[0] % d[1],
                told[0] / (d[0] * d[1]),
            ];
            for k in 0..3 {
                let whole = i128::from(told[k + 1]) * i128::from(d[k]);
                assert_eq!(whole + i128::from(own[k]), i128::from(input.address[k]));
            }
        }
        for (answer, least) in [(0, 4_000), (3, 300), (13, 50)] {
            let count = met.iter().filter(|&&met| met == answer).count();
            assert!(count > least, "{answer}: {count}");
        }
    }

    /// Rounds the quotients of negative numbers the wrong way.
    struct TowardZero;

    impl Function for TowardZero {
        type Input = FoldInput;

        fn outputs(input: &FoldInput) -> Outputs {
            GridIndexFromAddress::outputs(input)
        }

        fn port(input: &FoldInput, outputs: &mut Outputs) -> i64 {
            let answer = GridIndexFromAddress::oracle(input, outputs);
            if answer == ACCEPTED {
                let cell = [0, 1, 2].map(|k| input.address[k] / input.d[k]);
                outputs.told = folded(outputs.told[0], cell).to_vec();
            }
            answer
        }

        fn oracle(input: &FoldInput, outputs: &mut Outputs) -> i64 {
            GridIndexFromAddress::oracle(input, outputs)
        }
    }

    /// Also by the vectors.
    #[test]
    fn a_wrong_quotient_is_a_difference() {
        let cases = FoldInput::at_limits().len() as u64;
        assert!(compare::run::<TowardZero>(cases, 1) > 30);
        let differences = compare::run::<TowardZero>(1_000, 1);
        assert!((300..900).contains(&differences), "{differences}");
    }
}
