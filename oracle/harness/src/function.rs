//! What the commands ask of an exported function.

use std::fmt::{Debug, Write};

use crate::random::Random;
use crate::refusals::{ACCEPTED, REFUSED_PLACE};
use crate::vectors;

/// The ins of one call.
pub trait Input: Debug + Sized {
    /// Inputs at the limits and on both sides of them.
    fn at_limits() -> Vec<Self>;

    /// Any input: valid, at the limits or damaged.
    fn random(random: &mut Random) -> Self;

    /// Takes another record for the one that goes with a table, in some cases. A generator
    /// of its own decides, so that a seed gives the same cases else.
    fn other_record(&mut self, _: &mut Random) {}

    /// An accepted input of everyday size, for the bench.
    fn typical(random: &mut Random) -> Self;

    /// The ins as the vectors hold them.
    fn write(&self, line: &mut Line);
}

/// An exported function: both sides of it.
pub trait Function {
    /// Whether its outputs are lent, so that their lengths may be wrong.
    const LENT: bool = true;

    /// Cases of its vectors: those at the limits, filled up with random ones as
    /// far as there is room.
    const VECTORS: usize = 64;

    /// Bytes that its file may be filled up to.
    const ROOM: usize = vectors::ROOM;

    /// Places of its slices that the program which replays the vectors holds.
    const HELD: &'static [usize] = &[8_192; 3];

    /// The places of its slices that hold floats, which stand there as their bits.
    const FLOATS: &'static [usize] = &[];

    type Input: Input;

    /// Outputs of the lengths that the call wants.
    fn outputs(input: &Self::Input) -> Outputs;

    /// The port's answer; it fills the outputs.
    fn port(input: &Self::Input, outputs: &mut Outputs) -> i64;

    /// The Rust's answer, likewise.
    fn oracle(input: &Self::Input, outputs: &mut Outputs) -> i64;
}

/// The lent output slices of one call.
#[derive(Clone, Debug, PartialEq)]
pub struct Outputs {
    pub slices: Vec<Vec<i64>>,
    pub told: Vec<i64>,
}

impl Outputs {
    /// Only `told`, of a length.
    pub fn told(length: usize) -> Outputs {
        Outputs {
            slices: Vec::new(),
            told: vec![0; length],
        }
    }

    /// Slices of these lengths, and `told` of another.
    pub fn slices(lengths: &[usize], told: usize) -> Outputs {
        Outputs {
            slices: lengths.iter().map(|&length| vec![0; length]).collect(),
            told: vec![0; told],
        }
    }

    /// The answer of a call that writes every place, or is refused by a number.
    pub fn answer(
        &mut self,
        call: impl FnOnce(&mut [Vec<i64>], &mut [i64]) -> Result<(), i64>,
    ) -> i64 {
        let Err(refusal) = call(&mut self.slices, &mut self.told) else {
            return ACCEPTED;
        };
        self.slices
            .iter_mut()
            .for_each(|slice| slice.fill(REFUSED_PLACE));
        self.told.fill(REFUSED_PLACE);
        refusal
    }

    /// Gives one of the slices a length that it should not have. A call that
    /// tells nothing is not lent `told`.
    pub fn damage(&mut self, random: &mut Random) {
        let chosen = random.below(self.slices.len() + usize::from(!self.told.is_empty()));
        let slice = self.slices.get_mut(chosen).unwrap_or(&mut self.told);
        let length = slice.len();
        let wrong = [0, length.saturating_sub(1), length + 1, length + 2];
        slice.resize(random.pick(&wrong), 0);
    }

    /// Outputs that differ in every place, so that a place that the port does
    /// not write shows.
    pub fn unlike(&self) -> Outputs {
        let unlike = |slice: &Vec<i64>| slice.iter().map(|place| !place).collect();
        Outputs {
            slices: self.slices.iter().map(unlike).collect(),
            told: unlike(&self.told),
        }
    }
}

/// A line of the vectors: whole numbers, one space between two.
#[derive(Default)]
pub struct Line(String);

impl Line {
    pub fn number(&mut self, number: i64) {
        let space = if self.0.is_empty() { "" } else { " " };
        write!(self.0, "{space}{number}").expect("a string takes any text");
    }

    pub fn numbers(&mut self, numbers: &[i64]) {
        numbers.iter().for_each(|&number| self.number(number));
    }

    /// A slice: its length, then its items.
    pub fn slice(&mut self, items: &[i64]) {
        self.number(items.len() as i64);
        self.numbers(items);
    }

    pub fn text(self) -> String {
        self.0
    }
}

#[cfg(test)]
mod tests {
    use super::*;

    #[test]
    fn unlike_outputs_differ_in_every_place() {
        let outputs = Outputs {
            slices: vec![vec![-1, 0, i64::MIN], vec![]],
            told: vec![i64::MAX],
        };
        let unlike = outputs.unlike();
        assert_eq!(unlike.slices, [vec![0, -1, i64::MAX], vec![]]);
        assert_eq!(unlike.told, [i64::MIN]);
    }

    #[test]
    fn a_slice_stands_as_its_length_and_its_items() {
        let mut line = Line::default();
        line.number(-5);
        line.slice(&[7, 8]);
        line.slice(&[]);
        assert_eq!(line.text(), "-5 2 7 8 0");
    }
}
