//! The functions on f64: Rust's own of the same names. They are not lent any
//! slice; what they return is told by its words or as a number.

use phonors::common::nint;

use crate::bench::{call, Call, Timed};
use crate::function::{Function, Outputs};
use crate::inputs::floats::words;
use crate::port;
use crate::refusals::ACCEPTED;

macro_rules! floats {
    ($($row:ident: $name:ident, $tell:ident of $told:literal, $rust:expr;)+) => {$(
        pub struct $row;

        impl Function for $row {
            const LENT: bool = false;

            type Input = f64;

            fn outputs(_: &f64) -> Outputs {
                Outputs::told($told)
            }

            fn port(&x: &f64, outputs: &mut Outputs) -> i64 {
                outputs.told.copy_from_slice(&$tell(port::$name(x)));
                ACCEPTED
            }

            fn oracle(&x: &f64, outputs: &mut Outputs) -> i64 {
                let rust: fn(f64) -> _ = $rust;
                outputs.told.copy_from_slice(&$tell(rust(x)));
                ACCEPTED
            }
        }

        impl Timed for $row {
            fn bare(x: &f64) -> Call<'_> {
                call(*x, |&x, _| {
                    let rust: fn(f64) -> _ = $rust;
                    rust(x)
                })
            }

            fn export(x: &f64) -> Call<'_> {
                call(*x, |&x, _| port::$name(x))
            }
        }
    )+};
}

floats! {
    Round: round, words of 2, f64::round;
    Floor: floor, words of 2, f64::floor;
    Ceil: ceil, words of 2, f64::ceil;
    Abs: abs, words of 2, f64::abs;
    Sqrt: sqrt, words of 2, f64::sqrt;
    ToI64: to_i64, number of 1, |x| x as i64;
    Nint: nint, number of 1, nint;
    IsFinite: is_finite, number of 1, f64::is_finite;
}

pub struct ToF64;

impl Function for ToF64 {
    const LENT: bool = false;

    type Input = [i64; 1];

    fn outputs(_: &[i64; 1]) -> Outputs {
        Outputs::told(2)
    }

    fn port(&[n]: &[i64; 1], outputs: &mut Outputs) -> i64 {
        outputs.told.copy_from_slice(&words(port::to_f64(n)));
        ACCEPTED
    }

    fn oracle(&[n]: &[i64; 1], outputs: &mut Outputs) -> i64 {
        outputs.told.copy_from_slice(&words(n as f64));
        ACCEPTED
    }
}

impl Timed for ToF64 {
    fn bare(&[n]: &[i64; 1]) -> Call<'_> {
        call(n, |&n, _| n as f64)
    }

    fn export(&[n]: &[i64; 1]) -> Call<'_> {
        call(n, |&n, _| port::to_f64(n))
    }
}

fn number(n: impl Into<i64>) -> [i64; 1] {
    [n.into()]
}
