//! Pairs of numbers for the extended gcd: of any size, with many divisions, with a
//! common divisor, at the ends of the range.

use crate::function::{Input, Line};
use crate::inputs::numbers::{number, sign};
use crate::random::Random;

/// Fibonacci's numbers from 1, 1 on, as far as 64 bits hold them. No smaller numbers
/// take as many divisions as two neighbours do.
pub fn fibonacci() -> Vec<i64> {
    let mut row = vec![1i64, 1];
    while let Some(next) = row[row.len() - 2].checked_add(row[row.len() - 1]) {
        row.push(next);
    }
    row
}

/// Pairs with a way of their own.
const PAIRS: [[i64; 2]; 23] = [
    // The last product leaves 64 bits, though r, s and t would not; and where it just
    // does not.
    [6_928_140_218_625_461_984, -3],
    [6_928_140_218_625_461_984, 3],
    [-6_928_140_218_625_461_984, -3],
    [3 * (1 << 61) + 2, -3],
    [3 * (1 << 61) - 1, -3],
    // The last s or t is 2^63, or -2^63.
    [i64::MIN, 3],
    [i64::MIN, -3],
    [i64::MIN, 5],
    [i64::MIN, -5],
    [5, i64::MIN],
    [-5, i64::MIN],
    // One division, whose remainder is 0.
    [2, 2],
    [4, -2],
    [-4, -2],
    [6, 3],
    // The first division only exchanges, or has a remainder for a negative number.
    [2, 4],
    [-2, 4],
    [2, -4],
    [-2, -4],
    // None, and one of 0.
    [12, 0],
    [-12, 0],
    [0, 12],
    [0, -12],
];

#[derive(Debug)]
pub struct GcdInput {
    pub a: i64,
    pub b: i64,
}

/// Neighbours of Fibonacci's row, times a number.
fn neighbours(random: &mut Random) -> [i64; 2] {
    let row = fibonacci();
    let place = random.below(row.len() - 1);
    let [a, b] = [row[place], row[place + 1]];
    let most = i64::MAX / b;
    let any = random.between(1, most);
    let factor = random.pick(&[1, most, any]);
    [a * factor, b * factor]
}

/// Made from the end, by quotients up to a size, as far as 64 bits go or fewer.
fn of_quotients(random: &mut Random) -> [i64; 2] {
    let largest = random.pick(&[1, 2, 3, 10, 1_000]);
    let size = 1 << random.below(20);
    let mut pair = [random.between(1, size), 0];
    for _ in 0..random.below(92) {
        let product = pair[0].checked_mul(random.between(1, largest));
        let Some(next) = product.and_then(|product| product.checked_add(pair[1])) else {
            break;
        };
        pair = [next, pair[0]];
    }
    pair
}

/// A common divisor, and what it leaves of 64 bits.
fn multiples(random: &mut Random) -> [i64; 2] {
    let divisor = 1 + (random.between(0, i64::MAX - 1) >> random.below(63));
    let most = i64::MAX / divisor;
    [(); 2].map(|()| divisor * random.within(most))
}

/// A number next to the end of the range: s and t may reach 64 bits.
fn at_an_end(random: &mut Random) -> [i64; 2] {
    let next = random.between(i64::MAX / 4 * 3, i64::MAX);
    let large = random.pick(&[i64::MIN, next]);
    let any = number(random);
    [large, random.pick(&[-3, -5, any, any % 100])]
}

impl Input for GcdInput {
    /// Fibonacci's neighbours in their order, and the largest of either sign and order.
    fn at_limits() -> Vec<GcdInput> {
        let row = fibonacci();
        let mut pairs = <[i64; 2]>::at_limits();
        pairs.extend(PAIRS);
        pairs.extend(row.array_windows::<2>());
        for &[a, b] in row[84..].array_windows::<2>() {
            pairs.extend([[a, -b], [-a, b], [-a, -b]]);
            pairs.extend([[b, a], [b, -a], [-b, a], [-b, -a]]);
        }
        pairs.into_iter().map(GcdInput::of).collect()
    }

    fn random(random: &mut Random) -> GcdInput {
        let [a, b] = match random.below(5) {
            0 => return GcdInput::of(<[i64; 2]>::random(random)),
            1 => neighbours(random),
            2 => of_quotients(random),
            3 => multiples(random),
            _ => at_an_end(random),
        };
        let [a, b] = [a, b].map(|number| number.wrapping_mul(sign(random)));
        GcdInput::of(if random.coin() { [a, b] } else { [b, a] })
    }

    fn typical(random: &mut Random) -> GcdInput {
        GcdInput::of(<[i64; 2]>::typical(random))
    }

    fn write(&self, line: &mut Line) {
        line.numbers(&[self.a, self.b]);
    }
}

impl GcdInput {
    fn of([a, b]: [i64; 2]) -> GcdInput {
        GcdInput { a, b }
    }
}

#[cfg(test)]
mod tests {
    use super::*;

    #[test]
    fn the_row() {
        let row = fibonacci();
        assert_eq!(row[..7], [1, 1, 2, 3, 5, 8, 13]);
        let last = [4_660_046_610_375_530_309, 7_540_113_804_746_346_429];
        assert_eq!((row.len(), &row[90..]), (92, &last[..]));
    }

    /// Every size, both signs of each number, and the ends of the range.
    #[test]
    fn random_pairs() {
        let mut random = Random::new(1);
        let inputs: Vec<GcdInput> = (0..20_000).map(|_| Input::random(&mut random)).collect();
        let sides: [fn(&GcdInput) -> i64; 2] = [|input| input.a, |input| input.b];
        for side in sides {
            let numbers: Vec<i64> = inputs.iter().map(side).collect();
            for (sign, bits) in [1, -1]
                .into_iter()
                .flat_map(|s| (1..=63).map(move |k| (s, k)))
            {
                let has = |n: &i64| n.signum() == sign && n.unsigned_abs().ilog2() == bits - 1;
                assert!(numbers.iter().any(has), "{sign} {bits}");
            }
            assert!([0, i64::MIN, i64::MAX]
                .iter()
                .all(|end| numbers.contains(end)));
        }
    }
}
