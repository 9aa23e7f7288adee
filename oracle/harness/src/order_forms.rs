//! The order of two Hermite forms, by their nine numbers, row by row: the order that Rust
//! has for arrays.

use std::cmp::Ordering;

use crate::bench::{call, Call, Timed};
use crate::function::{Function, Input, Line, Outputs};
use crate::hermite3x3::formed;
use crate::inputs::matrices::diag;
use crate::inputs::numbers::number;
use crate::inputs::{forms, lent};
use crate::port;
use crate::random::Random;
use crate::snf3x3::flat;
use crate::tests::{fixed, length};

const BEFORE: i64 = 0;
const EQUAL: i64 = 1;
const AFTER: i64 = 2;

fn ordered(g: &[i64; 9], h: &[i64; 9]) -> i64 {
    match g.cmp(h) {
        Ordering::Less => BEFORE,
        Ordering::Equal => EQUAL,
        Ordering::Greater => AFTER,
    }
}

/// Nine numbers: a form, or any.
fn nine(random: &mut Random) -> Vec<i64> {
    match random.below(4) {
        0 => [(); 9].map(|()| number(random)).to_vec(),
        1 => [(); 9].map(|()| random.within(1)).to_vec(),
        _ => loop {
            if let Ok(form) = formed(forms::matrix(random)) {
                return flat(form);
            }
        },
    }
}

#[derive(Debug)]
pub struct FormsInput {
    g: Vec<i64>,
    h: Vec<i64>,
}

impl Input for FormsInput {
    fn at_limits() -> Vec<FormsInput> {
        let mut inputs = Vec::new();
        let mut both = |g: Vec<i64>, h: Vec<i64>| {
            let exchanged = FormsInput {
                g: h.clone(),
                h: g.clone(),
            };
            inputs.extend([FormsInput { g, h }, exchanged]);
        };
        let plain = flat(diag([2, 2, 3]));
        for length in [0, 8, 10] {
            both(plain.clone(), vec![2; length]);
        }
        both(vec![1; 8], vec![1; 10]);
        both(plain.clone(), plain.clone());
        both(vec![i64::MIN; 9], vec![i64::MAX; 9]);
        // The first place that differs decides, whatever stands after it.
        for place in 0..9 {
            let [mut g, mut h] = [plain.clone(), plain.clone()];
            g[place] += 1;
            both(g.clone(), plain.clone());
            h[place + 1..].fill(i64::MAX);
            both(g.clone(), h);
            g[place] = i64::MIN;
            g[place + 1..].fill(i64::MAX);
            both(g, plain.clone());
        }
        inputs
    }

    /// Half of them agree up to some place.
    fn random(random: &mut Random) -> FormsInput {
        let g = nine(random);
        let mut h = nine(random);
        if random.coin() {
            let places = random.below(10);
            h[..places].copy_from_slice(&g[..places]);
        }
        FormsInput {
            g: lent::fixed(random, &g),
            h: lent::fixed(random, &h),
        }
    }

    /// Two forms, of which a part agrees.
    fn typical(random: &mut Random) -> FormsInput {
        let [g, h] = [(); 2].map(|()| nine(random));
        let places = random.below(10);
        FormsInput {
            h: [&g[..places], &h[places..]].concat(),
            g,
        }
    }

    fn write(&self, line: &mut Line) {
        line.slice(&self.g);
        line.slice(&self.h);
    }
}

pub struct OrderForms;

impl Function for OrderForms {
    const VECTORS: usize = 96;

    type Input = FormsInput;

    fn outputs(_: &FormsInput) -> Outputs {
        Outputs::told(1)
    }

    fn port(input: &FormsInput, outputs: &mut Outputs) -> i64 {
        port::answer(zone::order_forms(&input.g, &input.h, &mut outputs.told))
    }

    /// 13 is the only refusal: the nine numbers may be any.
    fn oracle(input: &FormsInput, outputs: &mut Outputs) -> i64 {
        outputs.answer(|_, told| {
            let [g, h] = [fixed(&input.g)?, fixed(&input.h)?];
            length(told.len() == 1)?;
            told[0] = ordered(&g, &h);
            Ok(())
        })
    }
}

impl Timed for OrderForms {
    fn bare(input: &FormsInput) -> Call<'_> {
        let pair = [&input.g, &input.h].map(|slice| fixed(slice).expect("nine numbers"));
        call(pair, |[g, h]: &[[i64; 9]; 2], _| g.cmp(h))
    }
}

#[cfg(test)]
mod tests {
    use super::*;
    use crate::compare;

    fn asked(input: &FormsInput) -> (i64, i64) {
        let mut outputs = OrderForms::outputs(input).unlike();
        (OrderForms::oracle(input, &mut outputs), outputs.told[0])
    }

    #[test]
    fn points() {
        let told = |g, h| {
            let [g, h] = [flat(diag(g)), flat(diag(h))];
            asked(&FormsInput { g, h })
        };
        assert_eq!(told([1, 1, 2], [2, 1, 1]), (0, BEFORE));
        assert_eq!(told([2, 1, 1], [1, 1, 2]), (0, AFTER));
        assert_eq!(told([2, 2, 3], [2, 2, 3]), (0, EQUAL));
    }

    #[test]
    fn wrong_lengths() {
        let mut input = FormsInput {
            g: vec![0; 9],
            h: vec![0; 9],
        };
        assert_eq!(OrderForms::oracle(&input, &mut Outputs::told(2)), 13);
        input.h.push(0);
        assert_eq!(asked(&input), (13, -1));
    }

    #[test]
    fn every_answer_is_met() {
        let mut random = Random::new(1);
        let answers = (0..4_000).map(|_| asked(&FormsInput::random(&mut random)));
        let met: Vec<(i64, i64)> = answers.collect();
        for wanted in [(0, BEFORE), (0, EQUAL), (0, AFTER), (13, -1)] {
            let count = met.iter().filter(|&&told| told == wanted).count();
            assert!(count > 30, "{wanted:?}: {count}");
        }
    }

    /// Compares column by column.
    struct ByColumns;

    /// Compares the differences, which may leave 64 bits.
    struct ByDifference;

    fn transposed(m: &[i64]) -> Vec<i64> {
        if m.len() != 9 {
            return m.to_vec();
        }
        (0..9).map(|k| m[k % 3 * 3 + k / 3]).collect()
    }

    macro_rules! wrong {
        ($name:ident, |$input:ident, $outputs:ident| $port:expr) => {
            impl Function for $name {
                type Input = FormsInput;

                fn outputs(input: &FormsInput) -> Outputs {
                    OrderForms::outputs(input)
                }

                fn port($input: &FormsInput, $outputs: &mut Outputs) -> i64 {
                    $port
                }

                fn oracle(input: &FormsInput, outputs: &mut Outputs) -> i64 {
                    OrderForms::oracle(input, outputs)
                }
            }
        };
    }

    wrong!(ByColumns, |input, outputs| {
        let [g, h] = [&input.g, &input.h].map(|m| transposed(m));
        OrderForms::oracle(&FormsInput { g, h }, outputs)
    });

    wrong!(ByDifference, |input, outputs| {
        let answer = OrderForms::oracle(input, outputs);
        if answer == 0 {
            let pairs = input.g.iter().zip(&input.h);
            let mut differences = pairs.map(|(x, y)| x.wrapping_sub(*y));
            let first = differences.find(|&difference| difference != 0);
            outputs.told[0] = 1 + first.unwrap_or(0).signum();
        }
        answer
    });

    /// By the cases at the limits alone.
    #[test]
    fn wrong_ports_are_told() {
        let cases = FormsInput::at_limits().len() as u64;
        assert!(compare::run::<ByColumns>(cases, 1) > 0);
        assert!(compare::run::<ByDifference>(cases, 1) > 0);
    }
}
