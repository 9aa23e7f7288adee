/* numbers.h: libnumbers_c.a (`tools/archive numbers_c`), the whole numbers and floats that the port has in the place of
 * Rust's own, and the extended gcd inside of zone_snf3x3. The oracle compares them with the Rust; a program that folds
 * crystals needs zone.h alone. */
#ifndef NUMBERS_H
#define NUMBERS_H

#include <stdbool.h>
#include <stddef.h>
#include <stdint.h>

#ifdef __cplusplus
extern "C" {
#endif

/* Rust's i64::checked_*. Each answers 0, and out[1] is the exact result. 13: out has another length. 4: the result, or
 * the quotient that a remainder belongs to, leaves 64 bits, or the divisor is 0. After either every place of out holds
 * -1. */
int64_t zone_checked_add(int64_t a, int64_t b, int64_t *out, size_t out_len);
int64_t zone_checked_sub(int64_t a, int64_t b, int64_t *out, size_t out_len);
int64_t zone_checked_mul(int64_t a, int64_t b, int64_t *out, size_t out_len);
int64_t zone_checked_div(int64_t a, int64_t d, int64_t *out, size_t out_len);
int64_t zone_checked_rem(int64_t a, int64_t d, int64_t *out, size_t out_len);
int64_t zone_checked_div_euclid(int64_t a, int64_t d, int64_t *out, size_t out_len);
int64_t zone_checked_rem_euclid(int64_t a, int64_t d, int64_t *out, size_t out_len);
int64_t zone_checked_neg(int64_t a, int64_t *out, size_t out_len);

/* For every double, as in Rust: round (halves away from zero), floor, ceil, abs, sqrt, the cast `x as i64`,
 * x.round() as i64, is_finite, and the cast `n as f64`. */
double zone_round(double x);
double zone_floor(double x);
double zone_ceil(double x);
double zone_abs(double x);
double zone_sqrt(double x);
int64_t zone_to_i64(double x);
int64_t zone_nint(double x);
bool zone_is_finite(double x);
double zone_to_f64(int64_t n);

/* The extended gcd by which zone_snf3x3 clears an entry: r = s·a + t·b, which divides a and b. It may be negative, and
 * is 0 only for a = b = 0. Answers 0, and told[4] is r, s, t and the number of divisions, at most 127. 13: told has
 * another length. 4: a number on the way leaves 64 bits. After either every place of told holds -1. */
int64_t zone_extended_gcd(int64_t a, int64_t b, int64_t *told, size_t told_len);

#ifdef __cplusplus
}
#endif

#endif
