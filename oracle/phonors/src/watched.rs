//! What `bzgrid_watched` and `triplet_grid_watched` test on their walks: the range and
//! the images of each search, and every value read from a table. Where document 01 adds
//! a refusal they panic, with a message of its own. And what is left of each triplet.

use std::ops::Index;

use crate::common::Vec3I;

/// The search range of the images on each axis.
pub const SEARCH: i64 = 16;

pub const WIDE_RANGE: &str = "the search range leaves its limits";
pub const NO_IMAGE: &str = "the search accepts no candidate";
pub const READ_OUTSIDE: &str = "a value read lies outside its limits";

/// Before any candidate is tried: the walk over a wide range would not end.
pub fn range(lo: Vec3I, hi: Vec3I) {
    let wide = lo.iter().any(|&m| m < -SEARCH) || hi.iter().any(|&m| m > SEARCH);
    assert!(!wide, "{WIDE_RANGE}");
}

pub fn images(count: i64) {
    assert!(count > 0, "{NO_IMAGE}");
}

/// A lent table.
#[derive(Clone, Copy)]
pub struct Watched<'a, T> {
    pub items: &'a [T],
    /// Whether an item lies within the limits.
    pub fits: fn(&T) -> bool,
}

impl<T> Index<usize> for Watched<'_, T> {
    type Output = T;

    fn index(&self, place: usize) -> &T {
        let item = &self.items[place];
        assert!((self.fits)(item), "{READ_OUTSIDE}");
        item
    }
}

/// What the walk over the choices of a triplet leaves.
#[derive(Clone, Copy, Debug, PartialEq)]
pub enum Left {
    /// The sum of the three addresses is zero.
    Closed,
    /// The squared length of the sum.
    Length(f64),
    /// There is no choice.
    Empty,
}

/// The triplets that were walked.
#[derive(Debug, Default, PartialEq)]
pub struct Walked {
    pub left: Vec<Left>,
    /// Turns of the Rust that try nothing, where a range is empty.
    pub turns: u128,
}

impl Walked {
    /// Whether there is no choice, of so many images each.
    pub fn empty(&mut self, counts: [i64; 3]) -> bool {
        let empty = counts.iter().any(|&count| count <= 0);
        if empty {
            self.left.push(Left::Empty);
            let outer = counts.iter().take_while(|&&count| count > 0);
            self.turns += outer.map(|&count| count as u128).product::<u128>();
        }
        empty
    }

    /// The sum of the triplet that was found, and the least squared length.
    pub fn leave(&mut self, sum: Vec3I, length: f64) {
        self.left.push(if sum == [0; 3] {
            Left::Closed
        } else {
            Left::Length(length)
        });
    }
}
