//! The arithmetic of `snf3x3_measured`: the determinant and the product of
//! common.rs, number by number in their order, with the largest size kept. Only
//! these two leave 64 bits in snf3x3, and that is a panic here in every build.

use std::cell::Cell;
use std::ops::{Add, Mul, Sub};

use crate::common::MatI;

thread_local! {
    static LARGEST: Cell<u128> = const { Cell::new(0) };
}

/// What a call gives, and the largest size that it met: that of the number that
/// left 64 bits, if one did.
pub fn largest<T>(call: impl FnOnce() -> T) -> (T, u128) {
    LARGEST.set(0);
    let value = call();
    (value, LARGEST.get())
}

#[derive(Clone, Copy)]
struct Number(i64);

impl Number {
    /// The message begins as the Rust's own do.
    fn kept(exact: i128) -> Number {
        LARGEST.set(LARGEST.get().max(exact.unsigned_abs()));
        Number(exact.try_into().expect("attempt to leave 64 bits"))
    }

    fn wide(self) -> i128 {
        self.0.into()
    }
}

impl Add for Number {
    type Output = Number;

    fn add(self, other: Number) -> Number {
        Number::kept(self.wide() + other.wide())
    }
}

impl Sub for Number {
    type Output = Number;

    fn sub(self, other: Number) -> Number {
        Number::kept(self.wide() - other.wide())
    }
}

impl Mul for Number {
    type Output = Number;

    fn mul(self, other: Number) -> Number {
        Number::kept(self.wide() * other.wide())
    }
}

fn numbers(m: &MatI) -> [[Number; 3]; 3] {
    m.map(|row| row.map(Number))
}

pub fn det_i(m: &MatI) -> i64 {
    let m = numbers(m);
    let det = m[0][0] * (m[1][1] * m[2][2] - m[1][2] * m[2][1])
        - m[0][1] * (m[1][0] * m[2][2] - m[1][2] * m[2][0])
        + m[0][2] * (m[1][0] * m[2][1] - m[1][1] * m[2][0]);
    det.0
}

pub fn matmul_i(a: &MatI, b: &MatI) -> MatI {
    let [a, b] = [a, b].map(numbers);
    let cell = |i: usize, j: usize| a[i][0] * b[0][j] + a[i][1] * b[1][j] + a[i][2] * b[2][j];
    [0, 1, 2].map(|i| [0, 1, 2].map(|j| cell(i, j).0))
}
