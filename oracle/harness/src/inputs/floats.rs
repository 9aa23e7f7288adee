//! Values of f64, by their bits.

use crate::function::{Input, Line};
use crate::random::Random;

/// Values with an edge of their own, of both signs.
const EDGES: [f64; 22] = [
    0.0,
    f64::from_bits(1),
    f64::from_bits(0x000f_ffff_ffff_ffff),
    f64::MIN_POSITIVE,
    0.499_999_999_999_999_94,
    0.5,
    0.999_999_999_999_999_9,
    1.0,
    1.5,
    2.0,
    2.5,
    3.0,
    4.0,
    2_251_799_813_685_247.5,
    4_503_599_627_370_495.5,
    4_503_599_627_370_496.0,
    9_007_199_254_740_991.0,
    9_007_199_254_740_992.0,
    9_223_372_036_854_774_784.0,
    9_223_372_036_854_775_808.0,
    f64::MAX,
    f64::INFINITY,
];

/// Any value: random bits, a half, a neighbour of a whole number or of a power
/// of two, or a subnormal.
pub fn value(random: &mut Random) -> f64 {
    // Below 2^64, small and large ones alike.
    let whole = (random.bits() >> random.below(64)) as f64;
    let size = match random.below(5) {
        0 => f64::from_bits(random.bits()),
        1 => whole + 0.5,
        2 => near(random, whole),
        3 => {
            let exponent = random.between(-1074, 1023) as i32;
            near(random, 2f64.powi(exponent))
        }
        _ => f64::from_bits(random.bits() >> 12 >> random.below(52)),
    };
    if random.coin() {
        size
    } else {
        -size
    }
}

/// A value at most two steps away.
fn near(random: &mut Random, x: f64) -> f64 {
    f64::from_bits(x.to_bits().wrapping_add_signed(random.within(2)))
}

/// Stands for every NaN.
const NAN_BITS: u64 = 0x7ff8_0000_0000_0000;

/// The two 32-bit words of the bits, the high one first. The choice is made on
/// bits: between floats the compiler may keep any NaN.
pub fn words(x: f64) -> [i64; 2] {
    let bits = if x.is_nan() { NAN_BITS } else { x.to_bits() };
    [(bits >> 32) as i64, (bits & 0xffff_ffff) as i64]
}

impl Input for f64 {
    fn at_limits() -> Vec<f64> {
        let both = EDGES.iter().flat_map(|&x| [x, -x]);
        both.chain([f64::NAN]).collect()
    }

    fn random(random: &mut Random) -> f64 {
        value(random)
    }

    fn typical(random: &mut Random) -> f64 {
        random.between(1, 1_000_000) as f64 / 1_000.0
    }

    fn write(&self, line: &mut Line) {
        line.numbers(&words(*self));
    }
}

#[cfg(test)]
mod tests {
    use super::*;

    #[test]
    fn words_of_the_bits() {
        assert_eq!(words(1.0), [0x3ff0_0000, 0]);
        assert_eq!(words(-0.0), [0x8000_0000, 0]);
        assert_eq!(
            words(f64::from_bits(0xfff8_0000_0000_0001)),
            words(f64::NAN)
        );
    }

    #[test]
    fn every_kind_occurs() {
        let mut random = Random::new(1);
        let values: Vec<f64> = (0..10_000).map(|_| value(&mut random)).collect();
        assert!(values.iter().any(|x| x.is_nan()));
        assert!(values.iter().any(|x| x.is_subnormal()));
        assert!(values.iter().any(|x| x.fract().abs() == 0.5));
        assert!(values.iter().any(|x| *x < 0.0));
    }
}
