//! The vectors: fixed cases with the Rust's answers, one a line, for a program
//! that replays them where no Rust is at hand. A file a function.

use crate::function::{Function, Input, Line};
use crate::inputs::floats::words;
use crate::random::Random;

/// What the replaying program holds: a line, so that it has under 4,096 numbers; a
/// file, which is shorter than this.
const LINE_BYTES: usize = 8_000;
pub const FILE_BYTES: usize = 131_072;

/// Most files are filled up to half of that.
pub const ROOM: usize = FILE_BYTES / 2;

/// What that program lends outputs filled with, so that no answer may have it.
const UNWRITTEN: i64 = -7_777_777_777_777;

/// Bytes of a file's first line, at most.
const HEAD_BYTES: usize = 64;

/// An output of more places stands as their sum.
const LISTED: usize = 432;

/// The text of a function's file.
pub fn text(seed: u64, lines: &[String]) -> String {
    let text = format!("# oracle/vectors {seed}\n{}\n", lines.join("\n"));
    assert!(text.len() < FILE_BYTES, "{} bytes of vectors", text.len());
    text
}

pub fn lines<F: Function>(seed: u64) -> Vec<String> {
    let at_limits = F::Input::at_limits();
    let [cases, room] = [F::VECTORS, F::ROOM];
    filled(seed, cases, room, &at_limits, F::Input::random, line::<F>)
}

/// The lines of cases at the limits, filled up with random ones to a number of
/// cases, or as far as there is room.
pub fn filled<I>(
    seed: u64,
    cases: usize,
    room: usize,
    at_limits: &[I],
    input: fn(&mut Random) -> I,
    line: fn(&I) -> Option<String>,
) -> Vec<String> {
    let mut random = Random::new(seed);
    let mut lines: Vec<String> = at_limits.iter().filter_map(line).collect();
    let mut room = room - HEAD_BYTES;
    lines.iter().for_each(|line| room -= line.len() + 1);
    for _ in lines.len()..cases {
        let line = loop {
            let line = line(&input(&mut random));
            if let Some(line) = line.filter(|line| !lines.contains(line)) {
                break line;
            }
        };
        if room <= line.len() {
            break;
        }
        room -= line.len() + 1;
        lines.push(line);
    }
    lines
}

/// The ins, the answer, the slices, and what was told, if the replaying program
/// can hold it.
fn line<F: Function>(input: &F::Input) -> Option<String> {
    let mut outputs = F::outputs(input);
    let mut held = outputs.slices.iter().zip(F::HELD);
    if held.any(|(slice, &held)| slice.len() > held) {
        return None;
    }
    let answer = F::oracle(input, &mut outputs);
    let told = outputs.slices.iter().chain([&outputs.told]).flatten();
    assert!(told.copied().all(|place| place != UNWRITTEN), "{input:?}");
    let mut line = Line::default();
    input.write(&mut line);
    line.number(answer);
    for (k, slice) in outputs.slices.iter().enumerate() {
        if F::FLOATS.contains(&k) {
            let float = |&bits: &i64| words(f64::from_bits(bits as u64));
            let words: Vec<i64> = slice.iter().flat_map(float).collect();
            write(&mut line, slice.len(), &words);
        } else {
            write(&mut line, slice.len(), slice);
        }
    }
    line.numbers(&outputs.told);
    line_held(line)
}

/// An output of so many places: their number, then what they hold or its sum.
pub fn write(line: &mut Line, places: usize, numbers: &[i64]) {
    line.number(places as i64);
    if places > LISTED {
        line.number(sum(numbers));
    } else {
        line.numbers(numbers);
    }
}

/// The text of a line that the replaying program can hold.
pub fn line_held(line: Line) -> Option<String> {
    Some(line.text()).filter(|text| text.len() < LINE_BYTES)
}

/// A sum that every place bears on.
fn sum(places: &[i64]) -> i64 {
    const MODULUS: u64 = 1_000_003;
    let term = |place: &i64| place.unsigned_abs() % MODULUS * 2 + u64::from(*place < 0);
    let add = |sum: u64, place| (sum * 31 + term(place)) % MODULUS;
    places.iter().fold(0, add) as i64
}

#[cfg(test)]
mod tests {
    use super::*;
    use crate::grgrid::AllGridAddresses;
    use crate::integers::{CheckedMul, CheckedRem};

    #[test]
    fn the_form_of_a_file() {
        let lines = lines::<CheckedMul>(1);
        let text = text(1, &lines);
        assert_eq!(text.lines().next(), Some("# oracle/vectors 1"));
        assert_eq!(text.lines().count(), 1 + CheckedMul::VECTORS);
        assert!(text.ends_with('\n') && !text.ends_with("\n\n"));
        assert!(lines.contains(&"-1 -9223372036854775807 0 9223372036854775807".into()));
    }

    #[test]
    fn refusals_are_among_them() {
        assert!(lines::<CheckedRem>(1).contains(&"-9223372036854775808 -1 4 -1".into()));
    }

    #[test]
    fn sums() {
        assert_eq!(sum(&[]), 0);
        assert_eq!(sum(&[1, 0]), 62);
        assert_eq!(sum(&[0, 1]), 2);
        assert_eq!(sum(&[-1]), 3);
    }

    #[test]
    fn large_outputs_stand_as_sums() {
        let lines = lines::<AllGridAddresses>(1);
        let large = |line: &&String| line.starts_with("3 13 14 15 0 8190 ");
        let numbers = lines.iter().find(large).map(|line| line.split(' ').count());
        assert_eq!(numbers, Some(7));
    }

    #[test]
    fn a_seed_fixes_the_lines() {
        assert_eq!(lines::<CheckedMul>(1), lines::<CheckedMul>(1));
        assert_ne!(lines::<CheckedMul>(1), lines::<CheckedMul>(2));
    }
}
