//! The port's side of a call: the crate `zone` for what a user calls, and here the exports
//! for the comparison alone. A slice of Rattle is a pointer and a length, and the port keeps
//! to both: that is proved there, so the wrappers ask nothing of their callers.

use std::slice;

use zone::Refusal;

use crate::refusals::ACCEPTED;

extern "C" {
    fn zone_checked_add(a: i64, b: i64, told: *mut i64, told_len: usize) -> i64;
    fn zone_checked_sub(a: i64, b: i64, told: *mut i64, told_len: usize) -> i64;
    fn zone_checked_mul(a: i64, b: i64, told: *mut i64, told_len: usize) -> i64;
    fn zone_checked_div_euclid(a: i64, b: i64, told: *mut i64, told_len: usize) -> i64;
    fn zone_checked_rem_euclid(a: i64, b: i64, told: *mut i64, told_len: usize) -> i64;
    fn zone_checked_div(a: i64, b: i64, told: *mut i64, told_len: usize) -> i64;
    fn zone_checked_rem(a: i64, b: i64, told: *mut i64, told_len: usize) -> i64;
    fn zone_checked_neg(a: i64, told: *mut i64, told_len: usize) -> i64;
    fn zone_round(x: f64) -> f64;
    fn zone_floor(x: f64) -> f64;
    fn zone_ceil(x: f64) -> f64;
    fn zone_abs(x: f64) -> f64;
    fn zone_sqrt(x: f64) -> f64;
    fn zone_to_i64(x: f64) -> i64;
    fn zone_nint(x: f64) -> i64;
    fn zone_is_finite(x: f64) -> bool;
    fn zone_to_f64(n: i64) -> f64;
    fn zone_extended_gcd(a: i64, b: i64, told: *mut i64, told_len: usize) -> i64;
}

/// The number of an answer.
pub fn answer(answer: Result<(), Refusal>) -> i64 {
    answer.map_or_else(Refusal::number, |()| ACCEPTED)
}

/// The floats that stand as their bits in a slice.
pub fn floats(bits: &mut [i64]) -> &mut [f64] {
    // SAFETY: both have 64 bits, any of which make a number, and one alignment.
    unsafe { slice::from_raw_parts_mut(bits.as_mut_ptr().cast(), bits.len()) }
}

pub fn checked_add(a: i64, b: i64, told: &mut [i64]) -> i64 {
    unsafe { zone_checked_add(a, b, told.as_mut_ptr(), told.len()) }
}

pub fn checked_sub(a: i64, b: i64, told: &mut [i64]) -> i64 {
    unsafe { zone_checked_sub(a, b, told.as_mut_ptr(), told.len()) }
}

pub fn checked_mul(a: i64, b: i64, told: &mut [i64]) -> i64 {
    unsafe { zone_checked_mul(a, b, told.as_mut_ptr(), told.len()) }
}

pub fn checked_div_euclid(a: i64, b: i64, told: &mut [i64]) -> i64 {
    unsafe { zone_checked_div_euclid(a, b, told.as_mut_ptr(), told.len()) }
}

pub fn checked_rem_euclid(a: i64, b: i64, told: &mut [i64]) -> i64 {
    unsafe { zone_checked_rem_euclid(a, b, told.as_mut_ptr(), told.len()) }
}

pub fn checked_div(a: i64, b: i64, told: &mut [i64]) -> i64 {
    unsafe { zone_checked_div(a, b, told.as_mut_ptr(), told.len()) }
}

pub fn checked_rem(a: i64, b: i64, told: &mut [i64]) -> i64 {
    unsafe { zone_checked_rem(a, b, told.as_mut_ptr(), told.len()) }
}

pub fn checked_neg(a: i64, told: &mut [i64]) -> i64 {
    unsafe { zone_checked_neg(a, told.as_mut_ptr(), told.len()) }
}

pub fn round(x: f64) -> f64 {
    unsafe { zone_round(x) }
}

pub fn floor(x: f64) -> f64 {
    unsafe { zone_floor(x) }
}

pub fn ceil(x: f64) -> f64 {
    unsafe { zone_ceil(x) }
}

pub fn abs(x: f64) -> f64 {
    unsafe { zone_abs(x) }
}

pub fn sqrt(x: f64) -> f64 {
    unsafe { zone_sqrt(x) }
}

pub fn to_i64(x: f64) -> i64 {
    unsafe { zone_to_i64(x) }
}

pub fn nint(x: f64) -> i64 {
    unsafe { zone_nint(x) }
}

pub fn is_finite(x: f64) -> bool {
    unsafe { zone_is_finite(x) }
}

pub fn to_f64(n: i64) -> f64 {
    unsafe { zone_to_f64(n) }
}

pub fn extended_gcd(a: i64, b: i64, told: &mut [i64]) -> i64 {
    unsafe { zone_extended_gcd(a, b, told.as_mut_ptr(), told.len()) }
}
