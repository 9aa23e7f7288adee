//! Panics of the Rust, which document 01 counts as refusals: one from arithmetic
//! as 4, one from an index as 14. A watched walk also panics where the document
//! adds a refusal.

use std::any::Any;
use std::fmt::Debug;
use std::panic::{self, AssertUnwindSafe};
use std::sync::atomic::{AtomicUsize, Ordering};
use std::sync::Once;

use phonors::watched::{NO_IMAGE, READ_OUTSIDE, WIDE_RANGE};

use crate::refusals::{BAD_INDEX, OVERFLOW, SEARCH_RANGE};

/// How the messages begin that Rust, or a watched walk, has for each refusal.
const MESSAGES: [(&str, i64); 8] = [
    ("attempt to ", OVERFLOW),
    ("index out of bounds", BAD_INDEX),
    ("range start index", BAD_INDEX),
    ("range end index", BAD_INDEX),
    ("slice index starts at", BAD_INDEX),
    (WIDE_RANGE, SEARCH_RANGE),
    (NO_IMAGE, SEARCH_RANGE),
    (READ_OUTSIDE, ADDED_BAD_INDEX),
];

/// Stands for a 14 that document 01 adds.
const ADDED_BAD_INDEX: i64 = -BAD_INDEX;

/// Calls of the Rust that are under way. It is no thread's own number, since
/// rayon panics in threads of its own.
static CALLS: AtomicUsize = AtomicUsize::new(0);

static HOOK: Once = Once::new();

/// Calls the Rust: its value, or the refusal that its panic counts as. Any other
/// panic is a bug and goes on as one.
pub fn counted<T>(call: impl FnOnce() -> T) -> Result<T, i64> {
    HOOK.call_once(silence);
    CALLS.fetch_add(1, Ordering::SeqCst);
    // What the call leaves half done is not looked at.
    let result = panic::catch_unwind(AssertUnwindSafe(call));
    CALLS.fetch_sub(1, Ordering::SeqCst);
    result.or_else(|payload| match refusal(&*payload) {
        Some(number) => Err(number),
        None => panic::resume_unwind(payload),
    })
}

/// The Rust's value or refusal, after the same walk with every step watched. Where
/// that walk meets an added refusal, the Rust is not asked; else both must come to
/// the same end.
pub fn watched<T: Debug + PartialEq>(
    watched: impl FnOnce() -> Result<T, i64>,
    plain: impl FnOnce() -> Result<T, i64>,
) -> Result<T, i64> {
    let seen = counted(watched).flatten();
    match seen {
        Err(ADDED_BAD_INDEX) => return Err(BAD_INDEX),
        Err(SEARCH_RANGE) => return Err(SEARCH_RANGE),
        _ => {}
    }
    let answer = counted(plain).flatten();
    assert_eq!(answer, seen);
    answer
}

/// Prints nothing of a panic that counts as a refusal.
fn silence() {
    let hook = panic::take_hook();
    panic::set_hook(Box::new(move |info| {
        let in_call = CALLS.load(Ordering::SeqCst) > 0;
        if !(in_call && refusal(info.payload()).is_some()) {
            hook(info);
        }
    }));
}

fn refusal(payload: &(dyn Any + Send)) -> Option<i64> {
    let message = match payload.downcast_ref::<String>() {
        Some(message) => message,
        None => *payload.downcast_ref::<&str>()?,
    };
    let (_, number) = MESSAGES
        .iter()
        .find(|(start, _)| message.starts_with(start))?;
    Some(*number)
}

#[cfg(test)]
mod tests {
    use std::hint::black_box;

    use phonors::bzgrid::{neighboring_grid_points_many, BzGridView};
    use phonors::snf3x3::snf3x3;

    use super::*;

    #[test]
    fn a_value_comes_through() {
        let snf = counted(|| snf3x3([[3, 0, 0], [0, 1, 0], [0, 0, 1]]));
        assert_eq!(snf.unwrap().unwrap().d_diag, [1, 1, 3]);
    }

    /// A matrix of small entries on which the Rust leaves 64 bits.
    #[test]
    fn overflow() {
        let a = [[56, 36, 47], [68, 66, -36], [14, -42, -37]];
        assert_eq!(counted(|| snf3x3(a)).unwrap_err(), 4);
    }

    #[test]
    fn division() {
        let (zero, least) = (black_box(0), black_box(i64::MIN));
        assert_eq!(counted(|| 1 / zero), Err(4));
        assert_eq!(counted(|| 1i64.rem_euclid(zero)), Err(4));
        assert_eq!(counted(|| least % black_box(-1)), Err(4));
        assert_eq!(counted(|| -least), Err(4));
    }

    #[test]
    fn index() {
        let places = [0; 3];
        assert_eq!(counted(|| places[black_box(3)]), Err(14));
        assert_eq!(counted(|| places[..black_box(4)].len()), Err(14));
        assert_eq!(counted(|| places[black_box(4)..].len()), Err(14));
        assert_eq!(
            counted(|| places[black_box(2)..black_box(1)].len()),
            Err(14)
        );
    }

    /// From one of rayon's threads.
    #[test]
    fn index_of_a_parallel_walk() {
        let grid = BzGridView {
            d_diag: [1, 1, 1],
            addresses: &[],
            gp_map: &[],
            bz_grid_type: 2,
        };
        let call = || neighboring_grid_points_many(&mut [0], &[0], &[[0, 0, 0]], &grid);
        assert_eq!(counted(call), Err(14));
    }

    #[test]
    fn added_refusals() {
        let plain = || Ok(1);
        assert_eq!(watched(|| Ok(1), plain), Ok(1));
        assert_eq!(watched(|| panic!("{WIDE_RANGE}"), plain), Err(12));
        assert_eq!(watched(|| panic!("{NO_IMAGE}"), plain), Err(12));
        assert_eq!(watched(|| panic!("{READ_OUTSIDE}"), plain), Err(14));
        let index = || Ok([1][black_box(1)]);
        assert_eq!(watched(index, index), Err(14));
        assert_eq!(watched(|| Err(9), || Err::<i64, i64>(9)), Err(9));
    }

    #[test]
    #[should_panic]
    fn the_watched_walk_must_agree() {
        let _ = watched(|| Ok(1), || Ok(2));
    }

    #[test]
    fn any_other_panic_goes_on() {
        let payload = panic::catch_unwind(|| counted(|| panic!("a bug"))).unwrap_err();
        assert_eq!(payload.downcast_ref::<&str>(), Some(&"a bug"));
    }
}
