//! The pair of numbers up to a limit on which the extended gcd divides most often, which
//! the Rust does not tell: the divisions are its own, and the pairs are searched.

use std::cmp::Reverse;

use crate::extended_gcd::divided;
use crate::function::{Function, Input, Line, Outputs};
use crate::inputs::gcds::fibonacci;
use crate::inputs::numbers::{number, outside};
use crate::limits::WORST_LIMIT;
use crate::port;
use crate::random::Random;
use crate::tests::{length, limit};

/// Up to this limit all pairs are tried.
const ALL: i64 = 64;

/// A pair and its divisions.
#[derive(Clone, Copy, Debug, PartialEq)]
struct Pair {
    first: i64,
    second: i64,
    divisions: i64,
}

impl Pair {
    fn new(first: i64, second: i64) -> Pair {
        let [_, _, _, divisions] = divided(first, second).expect("no overflow");
        Pair {
            first,
            second,
            divisions,
        }
    }

    /// The most divisions; of such the least sum; of such the least first number.
    fn or_worse(self, other: Pair) -> Pair {
        let key = |pair: &Pair| {
            let sum = pair.first + pair.second;
            (Reverse(pair.divisions), sum, pair.first)
        };
        if key(&other) < key(&self) {
            other
        } else {
            self
        }
    }
}

/// The worst of all pairs.
fn tried(limit: i64) -> Pair {
    let pairs = (1..=limit).flat_map(|a| (1..=limit).map(move |b| Pair::new(a, b)));
    pairs.reduce(Pair::or_worse).expect("a pair")
}

/// The worst of all pairs, without those that cannot be it.
///
/// One division makes (b, a mod b) of a pair (a, b). So each pair is made from (g, 0), g
/// its gcd, by going back: of (r, s) comes (q·r + s, r) for a quotient q, from 1 on, or 0
/// for the last one, where the first division only exchanges. All of them are walked.
///
/// A branch is left where it cannot have as many divisions as the worst pair so far: its
/// numbers grow with every quotient, so none gets further within the limit than that of
/// the quotients 1.
struct Search {
    limit: i64,
    worst: Pair,
}

impl Search {
    fn worst(limit: i64) -> Pair {
        let mut search = Search {
            limit,
            worst: Pair::new(1, 1),
        };
        for g in 1..=limit {
            if !search.back([g, 0], 0) {
                break;
            }
        }
        search.worst
    }

    /// The most divisions that a pair made from this one can have, which itself has so
    /// many: as many steps back as the limit allows, and the exchange.
    fn most(&self, [mut r, mut s]: [i64; 2], mut divisions: i64) -> i64 {
        while r + s <= self.limit {
            [r, s] = [r + s, r];
            divisions += 1;
        }
        divisions + 1
    }

    /// Whether the pairs made from (r, s), which has so many divisions, were walked. If
    /// not, then neither need those be that are made from larger numbers.
    fn back(&mut self, [r, s]: [i64; 2], divisions: i64) -> bool {
        if self.most([r, s], divisions) < self.worst.divisions {
            return false;
        }
        if s > 0 {
            self.worst = self.worst.or_worse(Pair::new(s, r));
        }
        for a in (r + s..=self.limit).step_by(r as usize) {
            self.worst = self.worst.or_worse(Pair::new(a, r));
            // Of two equal numbers nothing comes: no remainder is the divisor.
            if a > r && !self.back([a, r], divisions + 1) {
                break;
            }
        }
        true
    }
}

#[derive(Debug)]
pub struct LimitInput {
    limit: i64,
}

impl Input for LimitInput {
    /// Both ends, and Fibonacci's numbers with theirs on either side.
    fn at_limits() -> Vec<LimitInput> {
        let ends = [0, 1, 2, WORST_LIMIT - 1, WORST_LIMIT, WORST_LIMIT + 1];
        let outside = [i64::MIN, -WORST_LIMIT, -2, -1, i64::MAX];
        let mut limits: Vec<i64> = ends.into_iter().chain(outside).collect();
        let row = fibonacci().into_iter().filter(|&f| f <= WORST_LIMIT);
        limits.extend(row.flat_map(|f| [f - 1, f, f + 1]));
        limits.sort();
        limits.dedup();
        limits
            .into_iter()
            .map(|limit| LimitInput { limit })
            .collect()
    }

    fn random(random: &mut Random) -> LimitInput {
        let limit = match random.below(8) {
            0 => outside(random, WORST_LIMIT),
            1 => number(random),
            2 => random.between(-2, ALL),
            3 => random.between(1, WORST_LIMIT) >> random.below(20),
            _ => random.between(1, WORST_LIMIT),
        };
        LimitInput { limit }
    }

    fn typical(random: &mut Random) -> LimitInput {
        LimitInput {
            limit: random.between(1, WORST_LIMIT),
        }
    }

    fn write(&self, line: &mut Line) {
        line.number(self.limit);
    }
}

pub struct WorstPair;

impl Function for WorstPair {
    const VECTORS: usize = 128;

    type Input = LimitInput;

    fn outputs(_: &LimitInput) -> Outputs {
        Outputs::told(3)
    }

    fn port(input: &LimitInput, outputs: &mut Outputs) -> i64 {
        port::answer(zone::worst_pair(input.limit, &mut outputs.told))
    }

    fn oracle(input: &LimitInput, outputs: &mut Outputs) -> i64 {
        outputs.answer(|_, told| {
            length(told.len() == 3)?;
            limit((1..=WORST_LIMIT).contains(&input.limit))?;
            let worst = if input.limit <= ALL {
                tried(input.limit)
            } else {
                Search::worst(input.limit)
            };
            told.copy_from_slice(&[worst.first, worst.second, worst.divisions]);
            Ok(())
        })
    }
}

#[cfg(test)]
mod tests {
    use super::*;
    use crate::compare;

    fn asked(limit: i64) -> (i64, Vec<i64>) {
        let mut outputs = Outputs::told(3);
        let answer = WorstPair::oracle(&LimitInput { limit }, &mut outputs);
        (answer, outputs.told)
    }

    #[test]
    fn points() {
        assert_eq!(asked(1), (0, vec![1, 1, 1]));
        assert_eq!(asked(2), (0, vec![1, 2, 2]));
        assert_eq!(asked(20), (0, vec![8, 13, 6]));
        assert_eq!(asked(1_000_000), (0, vec![514_229, 832_040, 29]));
        for limit in [0, -1, 1_000_001, i64::MIN, i64::MAX] {
            assert_eq!(asked(limit), (3, vec![-1; 3]));
        }
    }

    /// 13 comes before 3.
    #[test]
    fn wrong_lengths() {
        for length in [0, 2, 4] {
            let mut outputs = Outputs::told(length);
            let input = LimitInput { limit: 0 };
            assert_eq!(WorstPair::oracle(&input, &mut outputs), 13);
        }
    }

    /// The search against all pairs, one limit after the other.
    #[test]
    fn the_search_leaves_no_worse_pair() {
        let mut worst = Pair::new(1, 1);
        for limit in 1..=400 {
            for other in 1..=limit {
                worst = worst.or_worse(Pair::new(other, limit));
                worst = worst.or_worse(Pair::new(limit, other));
            }
            assert_eq!(Search::worst(limit), worst, "{limit}");
        }
    }

    #[test]
    fn every_answer_is_met() {
        let mut random = Random::new(1);
        let answers = (0..2_000).map(|_| asked(LimitInput::random(&mut random).limit));
        let met: Vec<(i64, Vec<i64>)> = answers.collect();
        let refused = met.iter().filter(|(answer, _)| *answer == 3).count();
        assert!((200..800).contains(&refused), "{refused}");
        for divisions in 1..=29 {
            assert!(met.iter().any(|(_, told)| told[2] == divisions));
        }
    }

    /// Takes the limit itself for outside.
    struct Short;

    impl Function for Short {
        type Input = LimitInput;

        fn outputs(input: &LimitInput) -> Outputs {
            WorstPair::outputs(input)
        }

        fn port(input: &LimitInput, outputs: &mut Outputs) -> i64 {
            let limit = input.limit;
            let less = if limit > 1 { limit - 1 } else { limit };
            WorstPair::oracle(&LimitInput { limit: less }, outputs)
        }

        fn oracle(input: &LimitInput, outputs: &mut Outputs) -> i64 {
            WorstPair::oracle(input, outputs)
        }
    }

    /// At each of Fibonacci's numbers from 2 to 832,040, and at 1,000,001.
    #[test]
    fn a_wrong_port_is_a_difference() {
        let cases = LimitInput::at_limits().len() as u64;
        let differences = compare::run::<Short>(cases, 1);
        assert!((25..=29).contains(&differences), "{differences}");
    }
}
