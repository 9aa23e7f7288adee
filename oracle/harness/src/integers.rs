//! The integer functions: Rust's `i64::checked_*`.

use crate::bench::{call, Call, Timed};
use crate::function::{Function, Outputs};
use crate::{oracle, port};

macro_rules! checked {
    ($($row:ident: $name:ident($($operand:ident),+) of $arity:literal;)+) => {$(
        pub struct $row;

        impl Function for $row {
            type Input = [i64; $arity];

            fn outputs(_: &Self::Input) -> Outputs {
                Outputs::told(1)
            }

            fn port(&[$($operand),+]: &Self::Input, outputs: &mut Outputs) -> i64 {
                port::$name($($operand,)+ &mut outputs.told)
            }

            fn oracle(&[$($operand),+]: &Self::Input, outputs: &mut Outputs) -> i64 {
                oracle::$name($($operand,)+ &mut outputs.told)
            }
        }

        impl Timed for $row {
            fn bare(input: &Self::Input) -> Call<'_> {
                call(*input, |&[$($operand),+], _| i64::$name($($operand),+))
            }
        }
    )+};
}

checked! {
    CheckedAdd: checked_add(a, b) of 2;
    CheckedSub: checked_sub(a, b) of 2;
    CheckedMul: checked_mul(a, b) of 2;
    CheckedDivEuclid: checked_div_euclid(a, b) of 2;
    CheckedRemEuclid: checked_rem_euclid(a, b) of 2;
    CheckedDiv: checked_div(a, b) of 2;
    CheckedRem: checked_rem(a, b) of 2;
    CheckedNeg: checked_neg(a) of 1;
}
