//! Records of image tables as callers lend them: the diagonal, the shift and the type of
//! the grid that a table is for. The Rust has none.

use phonors::common::Vec3I;

use crate::inputs::images::{DENSE, SPARSE};
use crate::inputs::lent;
use crate::random::Random;

/// Three numbers of the diagonal, three of the shift, and the type.
pub type Record = [i64; 7];

/// The ins of a call that reads a table.
pub trait Recorded: Sized {
    /// The record that goes with the table.
    fn record(&mut self) -> &mut Vec<i64>;

    /// The one that agrees with the call. A call without a shift takes any.
    fn own(&self) -> Vec<i64>;

    fn agreeing(mut self) -> Self {
        *self.record() = self.own();
        self
    }
}

pub fn of(d: Vec3I, ps: Vec3I, bz_grid_type: i64) -> Record {
    let [[x, y, z], [u, v, w]] = [d, ps];
    [x, y, z, u, v, w, bz_grid_type]
}

/// The same of slices that may have another length, where the call is refused anyway.
pub fn lent(d: &[i64], ps: &[i64], bz_grid_type: i64) -> Vec<i64> {
    let three = |slice: &[i64]| [0, 1, 2].map(|k| slice.get(k).copied().unwrap_or(0));
    of(three(d), three(ps), bz_grid_type).to_vec()
}

/// Once in so many cases a record is another one.
const OTHER: usize = 6;

/// Takes another record, in some cases: with one number or more that are not the call's,
/// and few of a wrong length.
pub fn change(random: &mut Random, record: &mut Vec<i64>) {
    if !random.one_in(OTHER) {
        return;
    }
    match random.below(12) {
        0..=5 => {
            let place = &mut record[random.below(7)];
            *place = other(random, *place);
        }
        6 => record[6] = (SPARSE + DENSE).wrapping_sub(record[6]),
        7 => record[..3].rotate_left(1),
        8 => record[3 + random.below(3)] ^= 1,
        9 => {
            for place in record.iter_mut() {
                if random.coin() {
                    *place = other(random, *place);
                }
            }
        }
        10 => record.iter_mut().for_each(|place| *place = any(random)),
        _ => lent::damage(random, record),
    }
}

/// A number beside it, one that has its low bits or its size, or any.
pub fn other(random: &mut Random, number: i64) -> i64 {
    match random.below(4) {
        0 => number.wrapping_add(random.pick(&[1, -1, 2, -2])),
        1 => number ^ 1 << random.pick(&[8, 16, 31, 32, 40, 62, 63]),
        2 => number.wrapping_neg(),
        _ => any(random),
    }
}

pub fn any(random: &mut Random) -> i64 {
    match random.below(3) {
        0 => random.pick(&[0, -1, i64::MIN, i64::MAX]),
        1 => random.between(0, 4),
        _ => random.bits() as i64,
    }
}

/// A change of an input that has another record.
pub type Change<I> = fn(&mut I);

/// Inputs with other records than that of an accepted one; with one of them under changes;
/// and with records of a wrong length, also where a number is refused.
pub fn at_limits<I: Recorded + Clone>(plain: &I, changes: &[Change<I>]) -> Vec<I> {
    let with = |record: &[i64], change: Change<I>| {
        let mut input = plain.clone();
        *input.record() = record.to_vec();
        change(&mut input);
        input
    };
    let own: Record = plain.own().try_into().expect("seven numbers");
    let others = disagreeing(own);
    let changed = changes.iter().map(|&change| with(&others[0], change));
    let mut inputs: Vec<I> = changed.collect();
    for length in [0, 6, 8] {
        let record = vec![own[0]; length];
        inputs.extend([with(&record, |_| {}), with(&record, changes[0])]);
    }
    // Lines of sparse tables are longer.
    let step = if own[6] == SPARSE { 4 } else { 1 };
    let some = others.iter().step_by(step);
    inputs.extend(some.map(|record| with(record, |_| {})));
    inputs
}

/// Other records beside one that agrees: one number off in each place, by one, in its high
/// bits or to an end of the range; the other type, two numbers exchanged, all seven off.
fn disagreeing(own: Record) -> Vec<Record> {
    let mut records = Vec::new();
    for place in 0..own.len() {
        let number = own[place];
        for other in [number + 1, number - 1, i64::MIN, i64::MAX, number | 1 << 32] {
            let mut record = own;
            record[place] = other;
            records.push(record);
        }
    }
    let [x, y, z, u, v, w, t] = own;
    records.push([x, y, z, u, v, w, SPARSE + DENSE - t]);
    records.push([y, x, z, u, v, w, t]);
    records.push([x, y, z, v, u, w, t]);
    records.push(own.map(|number| !number));
    records
}

#[cfg(test)]
mod tests {
    use super::*;
    use crate::bz_triplets_at_q::BzTripletsAtQ;
    use crate::compare;
    use crate::function::{Function, Outputs};
    use crate::neighboring_grid_points::NeighboringGridPoints;
    use crate::refusals::ACCEPTED;
    use crate::rotate_bz_grid_index::RotateBzGridIndex;
    use crate::rotate_bz_grid_indices::RotateBzGridIndices;

    #[test]
    fn records_of_calls() {
        assert_eq!(lent(&[4, 5, 6], &[1, 0, 1], 2), [4, 5, 6, 1, 0, 1, 2]);
        assert_eq!(lent(&[4], &[1, 0, 1, 9], 2), [4, 0, 0, 1, 0, 1, 2]);
        let own = [1, 2, 1, 1, 0, 1, 2];
        assert!(!disagreeing(own).contains(&own));
    }

    /// What a port that is not strict takes a lent record for, beside the call's own.
    type Rule = fn(usize, i64, i64) -> bool;

    /// The numbers that are taken for the call's: one place without a look, those with the
    /// same low bits or the same size, and multiples.
    const RULES: [Rule; 11] = [
        |place, _, _| place == 0,
        |place, _, _| place == 1,
        |place, _, _| place == 2,
        |place, _, _| place == 3,
        |place, _, _| place == 4,
        |place, _, _| place == 5,
        |place, _, _| place == 6,
        |_, lent, own| lent as i32 == own as i32,
        |_, lent, own| lent as u8 == own as u8,
        |_, lent, own| lent.unsigned_abs() == own.unsigned_abs(),
        |place, lent, own| place < 3 && lent % own.max(1) == 0,
    ];

    /// Some of a record's numbers exchanged for the call's.
    fn taken(lent: &[i64], own: &[i64], rule: Rule) -> Vec<i64> {
        let both = lent.iter().zip(own).enumerate();
        let number = |(place, (&lent, &own))| if rule(place, lent, own) { own } else { lent };
        both.map(number).collect()
    }

    fn asked<F: Function>(input: &F::Input) -> (i64, Outputs) {
        let mut outputs = F::outputs(input);
        (F::oracle(input, &mut outputs), outputs)
    }

    /// Of so many cases, how many tell each rule.
    fn told<F: Function>(cases: usize) -> [usize; RULES.len()]
    where
        F::Input: Recorded,
    {
        let [mut random, mut records] = [1, 2].map(Random::new);
        let mut told = [0; RULES.len()];
        for _ in 0..cases {
            let mut input: F::Input = compare::any(&mut random, &mut records);
            let (lent, own) = (input.record().clone(), input.own());
            if lent == own || lent.len() != own.len() {
                continue;
            }
            let answer = asked::<F>(&input);
            for (told, rule) in told.iter_mut().zip(RULES) {
                *input.record() = taken(&lent, &own, rule);
                *told += usize::from(asked::<F>(&input) != answer);
            }
        }
        told
    }

    #[test]
    fn every_number_is_compared() {
        for told in [
            told::<RotateBzGridIndex>(4_000),
            told::<RotateBzGridIndices>(4_000),
        ] {
            assert!(told.iter().all(|&told| told > 3), "{told:?}");
        }
    }

    /// The shift decides nothing.
    #[test]
    fn four_numbers_are_compared() {
        for told in [
            told::<NeighboringGridPoints>(4_000),
            told::<BzTripletsAtQ>(2_000),
        ] {
            for (rule, told) in told.into_iter().enumerate() {
                assert_eq!(told == 0, (3..6).contains(&rule), "{rule}: {told}");
            }
        }
    }

    /// Cases that tell who asks for a shift of 0.
    fn shifted<F: Function>(cases: usize) -> usize
    where
        F::Input: Recorded,
    {
        let [mut random, mut records] = [1, 2].map(Random::new);
        let mut met = 0;
        for _ in 0..cases {
            let mut input: F::Input = compare::any(&mut random, &mut records);
            let lent = input.record().clone();
            let agrees = lent == input.own() && lent[3..6] != [0; 3];
            met += usize::from(agrees && asked::<F>(&input).0 == ACCEPTED);
        }
        met
    }

    #[test]
    fn shifts_are_met() {
        assert!(shifted::<NeighboringGridPoints>(1_000) > 50);
        assert!(shifted::<BzTripletsAtQ>(500) > 20);
    }
}
