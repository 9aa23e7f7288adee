//! Jobs by the two words of an entry of their lattice: patterns of every kind, and
//! pairs whose files differ in one lowest bit, and with it their listings.

use phonors::common::IDENTITY;

use crate::inputs::images::TYPES;
use crate::inputs::jobs::{paper, Request};
use crate::inputs::lattices::REGULAR;
use crate::inputs::matrices::diag;
use crate::zone_list::listing;

/// The places off the diagonal.
const ASIDE: [usize; 6] = [1, 2, 3, 5, 6, 7];

/// Too small to bear on the listing: zeros, subnormals, the least that is none.
/// Exchanged, some are an infinity, a NaN, or numbers that do bear on it.
const TINY: [u64; 14] = [
    0x8000_0000_0000_0000,
    0x0000_0000_0000_0001,
    0x0000_0000_7fff_ffff,
    0x0000_0000_8000_0000,
    0x0000_0000_ffff_ffff,
    0x0000_0000_3fe0_0000,
    0x0000_0000_bfe0_0000,
    0x0000_0000_7ff0_0000,
    0x0000_0000_fff8_0000,
    0x8000_0000_0000_0001,
    0x8000_0000_8000_0000,
    0x000f_ffff_ffff_ffff,
    0x800f_ffff_ffff_ffff,
    0x0010_0000_0000_0000,
];

/// About 1 and -1, for the diagonal.
const NEAR_ONE: [u64; 7] = [
    0x3fef_ffff_ffff_ffff,
    0x3ff0_0000_0000_0001,
    0x3ff0_0000_7fff_ffff,
    0x3ff0_0000_8000_0000,
    0x3ff0_0000_ffff_ffff,
    0xbff0_0000_8000_0000,
    0xbfef_ffff_ffff_ffff,
];

/// Infinities, and NaNs that are quiet or not, some by their low word alone.
const NO_NUMBER: [u64; 9] = [
    0x7ff0_0000_0000_0000,
    0xfff0_0000_0000_0000,
    0x7ff0_0000_0000_0001,
    0x7ff0_0000_8000_0000,
    0xfff0_0000_ffff_ffff,
    0x7ff8_0000_0000_0000,
    0xfff8_0000_0000_0000,
    0x7fff_ffff_ffff_ffff,
    0xffff_ffff_ffff_ffff,
];

fn entry(request: &Request, place: usize) -> u64 {
    request.lattice[place / 3][place % 3].to_bits()
}

fn with(mut request: Request, place: usize, bits: u64) -> Request {
    request.lattice[place / 3][place % 3] = f64::from_bits(bits);
    request
}

/// The job of the paper with each pattern in an entry.
fn patterns() -> Vec<Request> {
    let places = |count| ASIDE.into_iter().cycle().take(count);
    let tiny = places(TINY.len()).zip(TINY);
    let near_one = [0, 4, 8].into_iter().cycle().zip(NEAR_ONE);
    let no_number = (0..9).zip(NO_NUMBER);
    let all = tiny.chain(near_one).chain(no_number);
    all.map(|(place, bits)| with(paper(), place, bits))
        .collect()
}

/// Two jobs whose lattices differ in the lowest bit of this entry, with different
/// listings: on a face-centred lattice, of which the entry is moved until images of
/// a point are no longer equally long.
fn pair(place: usize) -> [Request; 2] {
    let sizes = (1..).step_by(2).map(f64::from);
    let mut pairs = sizes.filter_map(|size| {
        let start = Request {
            a: diag([2, 2, 2]),
            rotations: vec![IDENTITY],
            lattice: REGULAR[1].map(|row| row.map(|x| x * size)),
            flags: 0,
            bz_grid_type: TYPES[place % 2] as u32,
            ..paper()
        };
        let listed = |bits| listing(&with(start.clone(), place, bits).plain());
        let mut low = entry(&start, place);
        let mut high = (f64::from_bits(low) + 0.1 * size).to_bits();
        let first = listed(low);
        while high - low > 1 {
            let middle = low + (high - low) / 2;
            if listed(middle) == first {
                low = middle;
            } else {
                high = middle;
            }
        }
        let last = listed(high);
        let holds = low ^ high == 1 && first.is_ok() && last.is_ok() && first != last;
        holds.then(|| [low, high].map(|bits| with(start.clone(), place, bits)))
    });
    pairs.next().expect("sizes do not end")
}

pub fn requests() -> Vec<Request> {
    let mut requests = patterns();
    requests.extend((0..9).flat_map(pair));
    requests
}

#[cfg(test)]
mod tests {
    use super::*;

    fn listed(request: &Request) -> Result<String, i64> {
        listing(&request.plain())
    }

    #[test]
    fn pairs() {
        let mut low_words = Vec::new();
        for place in 0..9 {
            let [first, second] = pair(place);
            assert_eq!(entry(&first, place) ^ entry(&second, place), 1);
            let flipped = with(first.clone(), place, entry(&second, place));
            assert_eq!(flipped.plain(), second.plain());
            assert!(listed(&first).is_ok() && listed(&second).is_ok());
            assert_ne!(listed(&first), listed(&second));
            low_words.push(entry(&first, place) as u32);
        }
        assert!(low_words.iter().any(|&word| word < 1 << 31));
        assert!(low_words.iter().any(|&word| word > 1 << 31));
    }

    #[test]
    fn answers() {
        let answer = |bits: &u64, place| listed(&with(paper(), place, *bits));
        let plain = listed(&paper());
        assert!(TINY.iter().all(|bits| answer(bits, 1) == plain));
        assert!(NEAR_ONE.iter().all(|bits| answer(bits, 4) == plain));
        assert!(NO_NUMBER.iter().all(|bits| answer(bits, 8) == Err(3)));
    }

    /// The words exchanged, a low word that is read as signed, a join of floats, one
    /// that loses the lowest bit, one that passes over the low word.
    #[test]
    fn wrong_joins() {
        let joins: [fn(u64, u64) -> u64; 5] = [
            |low, high| low << 32 | high,
            |low, high| high << 32 | low as i32 as u64,
            |low, high| (low as f64 + high as f64 * 2f64.powi(32)) as u64,
            |low, high| high << 32 | low & !1,
            |_, high| high << 32,
        ];
        for (k, join) in joins.into_iter().enumerate() {
            let told = requests().into_iter().filter(|request| {
                let wrong = |x: f64| {
                    let bits = x.to_bits();
                    f64::from_bits(join(bits & 0xffff_ffff, bits >> 32))
                };
                let lattice = request.lattice.map(|row| row.map(wrong));
                let other = Request {
                    lattice,
                    ..request.clone()
                };
                listed(request) != listed(&other)
            });
            assert!(told.count() >= 9, "{k}");
        }
    }
}
