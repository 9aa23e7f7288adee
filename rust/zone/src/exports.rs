//! The exports of the archive, as its own source declares them, each as a safe function.

use crate::{answer, Refusal};

/// `fn zone_name as name(..);` declares an export and the function that lends it slices. To the export a slice is its
/// pointer and its length.
macro_rules! exports {
    (@read $head:tt [$($safe:tt)*] [$($raw:tt)*] [$($passed:tt)*] $x:ident: &[$t:ty], $($rest:tt)*) => {
        exports! { @read $head [$($safe)* $x: &[$t],] [$($raw)* $x: *const $t, _: usize,]
            [$($passed)* $x.as_ptr(), $x.len(),] $($rest)* }
    };
    (@read $head:tt [$($safe:tt)*] [$($raw:tt)*] [$($passed:tt)*] $x:ident: &mut [$t:ty], $($rest:tt)*) => {
        exports! { @read $head [$($safe)* $x: &mut [$t],] [$($raw)* $x: *mut $t, _: usize,]
            [$($passed)* $x.as_mut_ptr(), $x.len(),] $($rest)* }
    };
    (@read $head:tt [$($safe:tt)*] [$($raw:tt)*] [$($passed:tt)*] $x:ident: $t:ty, $($rest:tt)*) => {
        exports! { @read $head [$($safe)* $x: $t,] [$($raw)* $x: $t,] [$($passed)* $x,] $($rest)* }
    };
    (@read [$export:ident $name:ident $(#[$said:meta])*] [$($safe:tt)*] [$($raw:tt)*] [$($passed:tt)*] $(,)?) => {
        $(#[$said])*
        #[inline]
        #[allow(clippy::too_many_arguments)]
        pub fn $name($($safe)*) -> Result<(), Refusal> {
            extern "C" {
                fn $export($($raw)*) -> i64;
            }
            // SAFETY: whatever the numbers and the lengths, the export keeps to the places lent (proved), and of these
            // no output shares one with another slice, since it is borrowed for writing.
            answer(unsafe { $export($($passed)*) })
        }
    };
    ($($(#[$said:meta])* fn $export:ident as $name:ident($($given:tt)*);)*) => {
        $(exports! { @read [$export $name $(#[$said])*] [] [] [] $($given)*, })*
    };
}

exports! {
    /// A made diagonal of the matrix A, P·A·Q = diag(d). `told`: the rounds.
    fn zone_snf3x3 as snf3x3(a: &[i64], d: &mut [i64], p: &mut [i64], q: &mut [i64], told: &mut [i64]);

    /// The Smith form of A, P·A·Q = diag(d), in which d0 divides d1 and d1 divides d2.
    fn zone_smith3x3 as smith3x3(a: &[i64], d: &mut [i64], p: &mut [i64], q: &mut [i64]);

    /// The Hermite form of A.
    fn zone_hermite3x3 as hermite3x3(a: &[i64], h: &mut [i64]);

    /// The order of two forms. `told`: 0 if `g` comes first, 1 if they are equal, else 2.
    fn zone_order_forms as order_forms(g: &[i64], h: &[i64], told: &mut [i64]);

    /// Whether two matrices make the same grid. `told`: 1 or 0.
    fn zone_same_grid as same_grid(a: &[i64], b: &[i64], told: &mut [i64]);

    /// The two numbers up to `limit` on which the extended gcd divides most often. `told`: these, and how often.
    fn zone_worst_pair as worst_pair(limit: i64, told: &mut [i64]);

    /// The reciprocal list of rotations as given. `told`: their count.
    fn zone_reciprocal_rotations as reciprocal_rotations(
        rotations: &[i64], time_reversal: bool, out: &mut [i64], told: &mut [i64],
    );

    /// The same of rotations that are a group; others are refused.
    fn zone_reciprocal_group as reciprocal_group(
        rotations: &[i64], time_reversal: bool, out: &mut [i64], told: &mut [i64],
    );

    /// As [`reciprocal_rotations`], transposed only if `transpose` says so.
    fn zone_reciprocal_point_group as reciprocal_point_group(
        rotations: &[i64], time_reversal: bool, transpose: bool, out: &mut [i64], told: &mut [i64],
    );

    /// The reciprocal list, transformed to act on addresses.
    fn zone_transform_rotations as transform_rotations(rotations: &[i64], d: &[i64], q: &[i64], out: &mut [i64]);

    /// The class of each point. `told`: how many points keep their own number.
    fn zone_ir_grid_map as ir_grid_map(
        rotations: &[i64], d: &[i64], ps: &[i64], map: &mut [i64], told: &mut [i64],
    );

    /// Weights and members of these classes, and the rotations that keep a point. `told`: how many classes there are,
    /// and how many such rotations.
    fn zone_class_weights as class_weights(
        rotations: &[i64], d: &[i64], ps: &[i64], point: i64, weights: &mut [i64], members: &mut [i64],
        keepers: &mut [i64], told: &mut [i64],
    );

    /// The address of each point.
    fn zone_all_grid_addresses as all_grid_addresses(d: &[i64], out: &mut [i64]);

    /// The point of an address. `told`: it, and its cell.
    fn zone_grid_index_from_address as grid_index_from_address(address: &[i64], d: &[i64], told: &mut [i64]);

    /// Where a rotation of the transformed list carries a point. `told`: the point, and its cell.
    fn zone_rotate_grid_index as rotate_grid_index(
        point: i64, rotation: &[i64], d: &[i64], ps: &[i64], told: &mut [i64],
    );

    /// The image table of a grid. `told`: the three lengths used, and the record.
    fn zone_bz_grid_addresses as bz_grid_addresses(
        d: &[i64], q: &[i64], ps: &[i64], lattice: &[f64], bz_grid_type: i64, addresses: &mut [i64],
        map: &mut [i64], grg: &mut [i64], told: &mut [i64],
    );

    /// The lengths of that table. `told`: of addresses, map and grg.
    fn zone_bz_grid_sizes as bz_grid_sizes(
        d: &[i64], q: &[i64], ps: &[i64], lattice: &[f64], bz_grid_type: i64, told: &mut [i64],
    );

    /// The same table, in outputs of the lengths `sizes`. `told`: these again, and the record.
    fn zone_bz_grid_fill as bz_grid_fill(
        d: &[i64], q: &[i64], ps: &[i64], lattice: &[f64], bz_grid_type: i64, sizes: &[i64],
        addresses: &mut [i64], map: &mut [i64], grg: &mut [i64], told: &mut [i64],
    );

    /// Which of 125 addresses of a point are the shortest, whatever the cell is.
    fn zone_mark_candidates as mark_candidates(
        d: &[i64], q: &[i64], ps: &[i64], lowest: &[i64], highest: &[i64], point: i64, marks: &mut [i64],
    );

    /// Where a rotation of the transformed list carries an image. `told`: the image, and 1 where it is a fallback.
    fn zone_rotate_bz_grid_index as rotate_bz_grid_index(
        index: i64, rotation: &[i64], addresses: &[i64], map: &[i64], table: &[i64], d: &[i64], ps: &[i64],
        bz_grid_type: i64, told: &mut [i64],
    );

    /// The same of many images.
    fn zone_rotate_bz_grid_indices as rotate_bz_grid_indices(
        indices: &[i64], rotation: &[i64], addresses: &[i64], map: &[i64], table: &[i64], d: &[i64], ps: &[i64],
        bz_grid_type: i64, out: &mut [i64], fallbacks: &mut [i64],
    );

    /// The neighbours of images, at given offsets.
    fn zone_neighboring_grid_points as neighboring_grid_points(
        points: &[i64], offsets: &[i64], addresses: &[i64], map: &[i64], table: &[i64], d: &[i64],
        bz_grid_type: i64, out: &mut [i64],
    );

    /// The table of the other type. `told`: its lengths and its record.
    fn zone_convert_bz_grid as convert_bz_grid(
        table: &[i64], addresses: &[i64], map: &[i64], grg: &[i64], out_addresses: &mut [i64],
        out_map: &mut [i64], out_grg: &mut [i64], told: &mut [i64],
    );

    /// The classes of triplets at the point `q0`. `told`: how many there are.
    fn zone_ir_triplets_at_q as ir_triplets_at_q(
        q0: i64, d: &[i64], rotations: &[i64], time_reversal: bool, swappable: bool, map_triplets: &mut [i64],
        map_q: &mut [i64], told: &mut [i64],
    );

    /// A triplet of images for each class.
    fn zone_bz_triplets_at_q as bz_triplets_at_q(
        q0: i64, addresses: &[i64], map: &[i64], table: &[i64], class_map: &[i64], d: &[i64], q: &[i64],
        lattice: &[f64], bz_grid_type: i64, out: &mut [i64], left: &mut [i64], left_length: &mut [f64],
        cells: &mut [i64],
    );

    /// The classes and their triplets as a sheet of text.
    fn zone_class_sheet as class_sheet(class_map: &[i64], triplets: &[i64], sheet: &mut [i64]);

    /// The listing of a job file. `told`: its bytes.
    fn zone_list as list(job: &[u8], text: &mut [u8], told: &mut [i64]);
}
