//! Why a call gives no result.

use core::error::Error;
use core::fmt::{Display, Formatter, Result as Written};

macro_rules! refusals {
    ($($name:ident = $number:literal, $meaning:literal;)*) => {
        /// A refusal. It is shown as its number and what it means.
        #[derive(Clone, Copy, Debug, PartialEq, Eq, Hash)]
        #[repr(i64)]
        pub enum Refusal {
            $(#[doc = $meaning] $name = $number,)*
        }

        impl Refusal {
            /// The number that the export answers.
            pub const fn number(self) -> i64 {
                self as i64
            }

            pub const fn of_number(number: i64) -> Option<Refusal> {
                match number {
                    $($number => Some(Refusal::$name),)*
                    _ => None,
                }
            }

            pub const fn meaning(self) -> &'static str {
                match self {
                    $(Refusal::$name => $meaning,)*
                }
            }
        }
    };
}

refusals! {
    Singular = 1, "the determinant of A is 0";
    NotConverged = 2, "100 rounds end without a diagonal: never given, since 82 are enough";
    OutsideLimits = 3, "a number is outside its limits";
    Overflow = 4, "a number on the way to the diagonal or to the form leaves 64 bits";
    SingularQ = 5, "the determinant of Q is 0";
    SymmetryBroken = 6, "a rotation does not keep the grid";
    TooManyRotations = 7, "a 49th distinct rotation";
    TooManyForInversion = 8, "over 24 distinct rotations, and time reversal has their negatives to join";
    BadGridType = 9, "the type is neither 1 nor 2";
    NotUnimodularQ = 10, "the determinant of Q is neither 1 nor -1";
    SingularReciprocalLattice = 11, "the determinant of the lattice is 0";
    SearchFailed = 12, "the search for images fails at a point: the basis is skewed, or very unequal in length";
    WrongLength = 13, "a slice has another length than it must, or an image output is short";
    OutsideTable = 14, "an index is outside its slice, or a number read from a table outside its limits";
    BadHeader = 15, "the header of the job file is wrong";
    OtherSizes = 16, "the lengths are not those of the table";
    OtherGrid = 17, "the table's record has another diagonal, shift or type than the call";
    NotGroup = 18, "the rotations are no group";
    CouldNotStand = 19, "no lists of images make the table";
    InvertedRange = 20, "the lowest of an inner product is above its highest";
}

impl Display for Refusal {
    fn fmt(&self, f: &mut Formatter) -> Written {
        write!(f, "refusal {}: {}", self.number(), self.meaning())
    }
}

impl Error for Refusal {}

/// What an export's number says.
#[inline]
pub(crate) fn answer(number: i64) -> Result<(), Refusal> {
    if number == 0 {
        return Ok(());
    }
    Err(Refusal::of_number(number).unwrap_or_else(|| unknown(number)))
}

#[cold]
fn unknown(number: i64) -> ! {
    panic!(
        "the archive answers {number}, which this crate does not know: they are not of one version"
    )
}
