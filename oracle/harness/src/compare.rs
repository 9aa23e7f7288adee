//! The differential run: the port and the Rust on the same random cases.

use std::any::type_name;

use crate::function::{Function, Input, Outputs};
use crate::random::Random;

/// Differences that are printed whole; the others are only counted.
const PRINTED: u64 = 5;

/// Once in so many cases an output has a wrong length.
const DAMAGED_OUTPUTS: usize = 50;

/// Runs the cases at the limits, then random ones, so many in all; counts those
/// in which the answer or a place of an output differs.
pub fn run<F: Function>(cases: u64, seed: u64) -> u64 {
    let [mut random, mut records] = [seed, !seed].map(Random::new);
    let mut at_limits = F::Input::at_limits().into_iter();
    let mut differences = 0;
    for _ in 0..cases {
        let input = match at_limits.next() {
            Some(input) => input,
            None => any(&mut random, &mut records),
        };
        let mut outputs = F::outputs(&input);
        if F::LENT && random.one_in(DAMAGED_OUTPUTS) {
            outputs.damage(&mut random);
        }
        let [port, rust] = both::<F>(&input, outputs);
        if port != rust {
            differences += 1;
            if differences <= PRINTED {
                eprintln!("{} {input:?}", type_name::<F>());
                print_side("port", &port);
                print_side("Rust", &rust);
            }
        }
    }
    differences
}

/// Any input, and the record that it is lent.
pub fn any<I: Input>(random: &mut Random, records: &mut Random) -> I {
    let mut input = I::random(random);
    input.other_record(records);
    input
}

/// What the port and the Rust answer, and what they leave in such outputs.
pub fn both<F: Function>(input: &F::Input, mut outputs: Outputs) -> [(i64, Outputs); 2] {
    let rust = F::oracle(input, &mut outputs);
    let mut written = outputs.unlike();
    let port = F::port(input, &mut written);
    [(port, written), (rust, outputs)]
}

fn print_side(side: &str, (answer, outputs): &(i64, Outputs)) {
    eprint!("  {side} answers {answer}, told {:?}", outputs.told);
    for slice in &outputs.slices {
        eprint!(", out {slice:?}");
    }
    eprintln!();
}

#[cfg(test)]
mod tests {
    use super::*;
    use crate::oracle;

    /// Leaves `told` as it was wherever the operand is odd.
    struct Lazy;

    impl Function for Lazy {
        type Input = [i64; 1];

        fn outputs(_: &[i64; 1]) -> Outputs {
            Outputs::told(1)
        }

        fn port(&[a]: &[i64; 1], outputs: &mut Outputs) -> i64 {
            let mut spare = outputs.told.clone();
            let told = if a % 2 == 0 {
                &mut outputs.told
            } else {
                &mut spare
            };
            oracle::checked_neg(a, told)
        }

        fn oracle(&[a]: &[i64; 1], outputs: &mut Outputs) -> i64 {
            oracle::checked_neg(a, &mut outputs.told)
        }
    }

    #[test]
    fn a_place_that_is_not_written_is_a_difference() {
        assert!((300..700).contains(&run::<Lazy>(1000, 1)));
    }
}
