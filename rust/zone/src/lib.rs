//! The zone folding of a diffuse-scattering camera: which points of a grid in reciprocal space are equivalent, where each
//! lies in the first Brillouin zone, and the classes of triplets q0 + q1 + q2 = G.
//!
//! A safe function for each export of the proved archive `libzone_c.a`, with its name less `zone_`. What it takes, leaves
//! and refuses is said in [`header`]. Inputs and outputs are slices that the caller lends; a wrong length is a refusal
//! like any other, and after a refusal every place of every output holds -1 (a byte 0). Any thread may make any call.
//!
//! The archive is `target/staticlib/libzone_c.a` of this repository, which `tools/archive zone_c` makes, or the one that
//! the variable `ZONE_C_ARCHIVE` names when the crate is built.
//!
//! A crystal without symmetry on a mesh of three points, from its cell to the triplets at the point q0 = 1:
//!
//! ```
//! # fn main() -> Result<(), zone::Refusal> {
//! let identity = [1, 0, 0, 0, 1, 0, 0, 0, 1];
//! let lattice = identity.map(f64::from); // reciprocal, the basis vectors in columns
//! let (time_reversal, swappable, dense, ps) = (true, true, 2, [0; 3]);
//!
//! // The grid
//! let (mut d, mut p, mut q, mut rounds) = ([0; 3], [0; 9], [0; 9], [0]);
//! zone::snf3x3(&[3, 0, 0, 0, 1, 0, 0, 0, 1], &mut d, &mut p, &mut q, &mut rounds)?;
//! assert_eq!(d, [1, 1, 3]);
//! let n = d.iter().product::<i64>() as usize;
//!
//! // The rotations, as they act on q and on addresses
//! let (mut reciprocal, mut count) = ([0; zone::GROUP_LENGTH], [0]);
//! zone::reciprocal_group(&identity.map(i64::from), time_reversal, &mut reciprocal, &mut count)?;
//! let reciprocal = &reciprocal[..9 * count[0] as usize];
//! let mut rotations = vec![0; reciprocal.len()];
//! zone::transform_rotations(reciprocal, &d, &q, &mut rotations)?;
//!
//! // The images, in outputs of the lengths that are told first
//! let (mut sizes, mut told) = ([0; 3], [0; 3 + zone::RECORD_LENGTH]);
//! zone::bz_grid_sizes(&d, &q, &ps, &lattice, dense, &mut sizes)?;
//! let [mut addresses, mut map, mut grg] = sizes.map(|length| vec![0; length as usize]);
//! zone::bz_grid_fill(&d, &q, &ps, &lattice, dense, &sizes, &mut addresses, &mut map, &mut grg, &mut told)?;
//! let record = &told[3..];
//!
//! // The classes at q0, and a triplet of images for each
//! let (q0, mut class_map, mut map_q, mut classes) = (1, vec![0; n], vec![0; n], [0]);
//! zone::ir_triplets_at_q(q0, &d, &rotations, time_reversal, swappable, &mut class_map, &mut map_q, &mut classes)?;
//! assert_eq!(class_map, [0, 1, 0]);
//!
//! let k = classes[0] as usize;
//! let (mut triplets, mut left, mut left_length, mut cells) = (vec![0; 3 * k], vec![0; k], vec![0.; k], vec![0; 3 * k]);
//! let image = map[q0 as usize];
//! zone::bz_triplets_at_q(
//!     image, &addresses, &map, record, &class_map, &d, &q, &lattice, dense, &mut triplets, &mut left,
//!     &mut left_length, &mut cells,
//! )?;
//! assert_eq!(triplets, [1, 0, 2, 1, 1, 1]);
//!
//! // A refusal
//! let refusal = zone::snf3x3(&[0; 9], &mut d, &mut p, &mut q, &mut rounds).unwrap_err();
//! assert_eq!(refusal, zone::Refusal::Singular);
//! assert_eq!(refusal.to_string(), "refusal 1: the determinant of A is 0");
//! assert_eq!(d, [-1; 3]);
//! # Ok(())
//! # }
//! ```
#![no_std]

mod exports;
mod refusals;

pub use exports::*;
use refusals::answer;
pub use refusals::Refusal;

/// The header `include/zone.h`, of which each section on a call holds here too.
///
/// ```text
#[doc = include_str!("../../../include/zone.h")]
/// ```
pub mod header {}

/// Rotations that a list may have.
pub const MOST_ROTATIONS: usize = 192;
/// Places of the reciprocal list: room for 48 matrices.
pub const GROUP_LENGTH: usize = 432;
/// Points that a grid may have.
pub const MOST_POINTS: usize = 65536;
/// Candidates of a point, whose marks [`mark_candidates`] gives.
pub const CANDIDATES: usize = 125;
/// Places of an image table's record, which starts at `told[3]` where the table is made.
pub const RECORD_LENGTH: usize = 7;
/// Images in a table, whatever the lattice.
pub const MOST_IMAGES: usize = 2363359232;
/// Bytes of the longest job file.
pub const JOB_LENGTH: usize = 8192;
/// Bytes of the longest listing.
pub const TEXT_LENGTH: usize = 6940;

/// Places of the image map of n points.
pub const fn map_length(bz_grid_type: i64, n: usize) -> usize {
    if bz_grid_type == 1 {
        9 * n + 1
    } else {
        n + 1
    }
}

/// Places of the sheet of so many classes.
pub const fn sheet_length(classes: usize) -> usize {
    46 * (classes + classes.div_ceil(40))
}
