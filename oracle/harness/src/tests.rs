//! The tests of documents 01 and 02 that come before a call of the library, as
//! results: the value, or the number of the refusal.

use phonors::common::{MatD, MatI, Vec3I};

use crate::demand::is_group;
use crate::inputs::images::TYPES;
use crate::inputs::matrices::is_within;
use crate::inputs::records::Record;
use crate::limits::{DIAGONAL, POINTS, ROTATIONS};
use crate::refusals::{NOT_GROUP, OTHER_GRID, OUTSIDE_LIMITS, WRONG_LENGTH};

/// Lengths that are wrong.
pub fn length(holds: bool) -> Result<(), i64> {
    holds.then_some(()).ok_or(WRONG_LENGTH)
}

/// Numbers outside the limits.
pub fn limit(holds: bool) -> Result<(), i64> {
    holds.then_some(()).ok_or(OUTSIDE_LIMITS)
}

/// A slice of a fixed length.
pub fn fixed<const N: usize>(slice: &[i64]) -> Result<[i64; N], i64> {
    slice.try_into().map_err(|_| WRONG_LENGTH)
}

/// A lent list of matrices, by rows.
pub fn matrices(list: &[i64]) -> Result<Vec<MatI>, i64> {
    length(list.len() % 9 == 0)?;
    Ok(list.chunks_exact(9).map(rows).collect())
}

/// A lent matrix, by rows.
pub fn matrix(slice: &[i64]) -> Result<MatI, i64> {
    length(slice.len() == 9)?;
    Ok(rows(slice))
}

fn rows(m: &[i64]) -> MatI {
    [0, 3, 6].map(|row| [m[row], m[row + 1], m[row + 2]])
}

/// A lent list of addresses.
pub fn addresses(list: &[i64]) -> Result<&[Vec3I], i64> {
    let (addresses, rest) = list.as_chunks();
    length(rest.is_empty())?;
    Ok(addresses)
}

/// A lent lattice, by rows.
pub fn lattice(slice: &[f64]) -> Result<MatD, i64> {
    let (rows, rest) = slice.as_chunks();
    length(rest.is_empty())?;
    rows.try_into().map_err(|_| WRONG_LENGTH)
}

pub fn rotations_fit(list: &[MatI], size: i64) -> bool {
    list.len() <= ROTATIONS && list.iter().all(|rotation| is_within(rotation, size))
}

/// A list, as it is given, that is no group.
pub fn group(list: &[MatI]) -> Result<(), i64> {
    is_group(list).then_some(()).ok_or(NOT_GROUP)
}

/// The number of points of a diagonal within the limits.
pub fn points(d: Vec3I) -> Result<usize, i64> {
    limit(d.iter().all(|number| (1..=DIAGONAL).contains(number)))?;
    let points: i64 = d.iter().product();
    limit(points <= POINTS)?;
    Ok(points as usize)
}

pub fn shift_fits(ps: Vec3I) -> bool {
    ps.iter().all(|number| [0, 1].contains(number))
}

/// A table's record beside the call's own numbers, of which only the rotation has a shift.
/// What is no type is refused before, by the Rust.
pub fn same_grid(table: Record, d: Vec3I, ps: Option<Vec3I>, bz_grid_type: i64) -> Result<(), i64> {
    let [x, y, z, u, v, w, t] = table;
    let agrees = [x, y, z] == d && ps.is_none_or(|ps| [u, v, w] == ps) && t == bz_grid_type;
    let no_type = !TYPES.contains(&bz_grid_type);
    (agrees || no_type).then_some(()).ok_or(OTHER_GRID)
}

#[cfg(test)]
mod tests {
    use super::*;

    #[test]
    fn lists_of_matrices() {
        assert_eq!(matrices(&[]), Ok(vec![]));
        assert_eq!(matrices(&[0; 10]), Err(13));
        let two: Vec<i64> = (1..=18).collect();
        let last = [[10, 11, 12], [13, 14, 15], [16, 17, 18]];
        assert_eq!(matrices(&two).unwrap()[1], last);
        assert_eq!(matrix(&two[9..]), Ok(last));
        assert_eq!(matrix(&two), Err(13));
        assert!(rotations_fit(&[[[-5; 3]; 3]; 192], 5));
        assert!(!rotations_fit(&[[[0; 3]; 3]; 193], 5));
        assert!(!rotations_fit(&[[[6; 3]; 3]], 5));
    }

    #[test]
    fn diagonals() {
        assert_eq!(points([256, 256, 1]), Ok(65_536));
        assert_eq!(points([256, 256, 2]), Err(3));
        assert_eq!(points([257, 1, 1]), Err(3));
        assert_eq!(points([i64::MAX, i64::MAX, 0]), Err(3));
    }

    /// Each of the seven numbers decides, the shift only beside a shift.
    #[test]
    fn grids_of_records() {
        let (table, d, ps) = ([5, 6, 7, 0, 1, 0, 2], [5, 6, 7], [0, 1, 0]);
        assert_eq!(same_grid(table, d, Some(ps), 2), Ok(()));
        for place in 0..7 {
            let mut other = table;
            other[place] = !other[place];
            assert_eq!(same_grid(other, d, Some(ps), 2), Err(17));
            assert_eq!(
                same_grid(other, d, None, 2).is_ok(),
                (3..6).contains(&place)
            );
            assert_eq!(same_grid(other, d, Some(ps), 3), Ok(()));
        }
    }

    #[test]
    fn lengths() {
        assert_eq!(fixed(&[1, 2, 3]), Ok([1, 2, 3]));
        assert_eq!(fixed::<3>(&[1, 2]), Err(13));
        assert_eq!(addresses(&[1, 2, 3]), Ok(&[[1, 2, 3]][..]));
        assert_eq!(addresses(&[1, 2, 3, 4]), Err(13));
        let nine = [1.0, 2.0, 3.0, 4.0, 5.0, 6.0, 7.0, 8.0, 9.0];
        assert_eq!(lattice(&nine).unwrap()[2], [7.0, 8.0, 9.0]);
        assert_eq!(lattice(&nine[..8]), Err(13));
        assert_eq!(lattice(&nine[..6]), Err(13));
    }
}
