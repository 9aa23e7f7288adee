//! Job files at the limits: of the header, of the lengths, of the points and the
//! images, and one for every refusal that a job can meet.
//!
//! Six of document 01's numbers are met by no job. 2: the diagonalising ends long
//! before 100 rounds. 5 and 10: the Q that it returns has the determinant 1 or -1. 7
//! and 8: no finite group of whole matrices has over 48 members, nor over 24 without
//! the inversion. 14: the tables are those of the image call, and q0 is tested (3)
//! before it is read. Nor is document 02's 17: the record is that call's own.

use phonors::common::{MatD, MatI, IDENTITY};

use crate::inputs::groups::{
    closure, failures, half_a_group, shears, CUBIC, FOURFOLD, HEXAGONAL, THREEFOLD,
};
use crate::inputs::images::TYPES;
use crate::inputs::job_floats;
use crate::inputs::jobs::{
    paper, set_word, JobInput, Request, COUNT, FLAGS, LATTICE, LIST, MATRIX, POINT, TOTAL, TYPE,
};
use crate::inputs::lattices::REGULAR;
use crate::inputs::lent_images::{diag_d, sheared};
use crate::inputs::lent_transforms::EXCHANGE;
use crate::inputs::matrices::diag;
use crate::inputs::walks::{INSIDE, SMALLEST};
use crate::limits::{
    JOB_BYTES, JOB_HEADER_BYTES, LATTICE_ENTRY, MATRIX_ENTRY, Q_ENTRY, ROTATIONS, ROTATION_ENTRY,
    TRANSFORMED_ENTRY,
};

/// The job of the paper first; each with room for its text.
pub fn inputs() -> Vec<JobInput> {
    let kinds = [
        accepted(),
        numbers(),
        lists(),
        refused(),
        images(),
        job_floats::requests(),
    ];
    let requests = kinds.iter().flatten();
    let plain = requests.map(Request::plain);
    let jobs = plain.chain(headers()).chain(lengths());
    let room = JOB_BYTES;
    jobs.map(|job| JobInput { job, room }).collect()
}

/// With the total that the header names.
fn told(mut job: Vec<u8>, total: usize) -> Vec<u8> {
    set_word(&mut job, TOTAL, total as u32);
    job
}

/// The job of the paper with a word of its header at every limit.
fn headers() -> Vec<Vec<u8>> {
    let plain = paper().plain();
    let total = plain.len() as u32;
    let words: [(usize, &[u32]); 8] = [
        (TOTAL, &[0, total - 1, total + 1, 1 << 31]),
        (COUNT, &[0, 2, 3, 4, 192, 193, u32::MAX]),
        (
            MATRIX,
            &[0, 31, 32, total - 36, total - 35, total, u32::MAX],
        ),
        (LIST, &[31, 32, 33, total - 36, total - 35, u32::MAX - 35]),
        (LATTICE, &[31, 32, total - 72, total - 71, total, 1 << 31]),
        (FLAGS, &[0, 1, 2, 3, 4, 1 << 31]),
        (TYPE, &[0, 1, 2, 3, u32::MAX]),
        (POINT, &[0, 1, 2, 3, u32::MAX]),
    ];
    let mut jobs = Vec::new();
    for (place, values) in words {
        for &value in values {
            let mut job = plain.clone();
            set_word(&mut job, place, value);
            jobs.push(job);
        }
    }
    // An empty list anywhere from the header's end to the end.
    for offset in [31, 32, total, total + 1] {
        let mut job = plain.clone();
        set_word(&mut job, COUNT, 0);
        set_word(&mut job, LIST, offset);
        jobs.push(job);
    }
    // Each section ends where the job ends, or a byte before.
    for order in [[2, 0, 1], [1, 2, 0]] {
        jobs.push(paper().file(order, [1, 0, 5]));
    }
    let mut longer = plain;
    longer.push(0);
    jobs.push(told(longer, total as usize + 1));
    jobs
}

/// Cut and lengthened, with the length that the header names and with another.
fn lengths() -> Vec<Vec<u8>> {
    let plain = paper().plain();
    let mut jobs = vec![vec![]];
    for length in [31, 32, 33, plain.len() - 1] {
        jobs.push(plain[..length].to_vec());
        jobs.push(told(plain[..length].to_vec(), length));
    }
    // The shortest: all sections at one place, of which the lattice is the longest. A is
    // the identity, so that the list of one is a group.
    let shortest = JOB_HEADER_BYTES + 72;
    for length in [shortest - 1, shortest] {
        for count in [0, 1] {
            let mut job = told(with(IDENTITY).plain()[..length].to_vec(), length);
            set_word(&mut job, COUNT, count);
            for section in [MATRIX, LIST, LATTICE] {
                set_word(&mut job, section, JOB_HEADER_BYTES as u32);
            }
            jobs.push(job);
        }
    }
    for [length, total] in [
        [JOB_BYTES - 1, JOB_BYTES - 1],
        [JOB_BYTES, JOB_BYTES],
        [JOB_BYTES, JOB_BYTES + 1],
        [JOB_BYTES + 1, JOB_BYTES + 1],
        [JOB_BYTES + 1, JOB_BYTES],
        [JOB_BYTES + 2, JOB_BYTES],
        [2 * JOB_BYTES, JOB_BYTES],
    ] {
        let mut job = plain.clone();
        job.resize(length, 0);
        jobs.push(told(job, total));
    }
    jobs
}

fn with(a: MatI) -> Request {
    Request { a, ..paper() }
}

/// Of both types, with every flag, from several points: the job of the paper, and
/// a tetragonal crystal of 16 points.
fn accepted() -> Vec<Request> {
    let crystal = Request {
        a: diag([4, 4, 1]),
        rotations: closure(&[FOURFOLD]),
        lattice: REGULAR[4],
        ..paper()
    };
    let mut requests = vec![paper()];
    for bz_grid_type in TYPES {
        for flags in 0..4 {
            let (bz_grid_type, q0) = (bz_grid_type as u32, 5);
            requests.push(Request {
                flags,
                bz_grid_type,
                q0,
                ..crystal.clone()
            });
        }
        for q0 in [0, 15, 16] {
            requests.push(Request {
                q0,
                bz_grid_type: bz_grid_type as u32,
                ..crystal.clone()
            });
        }
    }
    requests
}

/// Matrices about the limits of the entries, of the diagonal numbers and of the
/// points.
fn numbers() -> Vec<Request> {
    let numbers = [
        [16, 16, 1],
        [17, 16, 1],
        [2, 130, 1],
        [17, 17, 1],
        [256, 1, 1],
        [257, 1, 1],
        [-3, 1, 1],
        [MATRIX_ENTRY, 1, 1],
        [MATRIX_ENTRY + 1, 1, 1],
        [8, 8, 4],
    ];
    let mut requests: Vec<Request> = numbers.map(|numbers| with(diag(numbers))).to_vec();
    // Of Q, which has this entry with the sign changed.
    for entry in [Q_ENTRY, Q_ENTRY + 1] {
        requests.push(with([[1, entry, 0], [0, 1, 0], [0, 0, 3]]));
    }
    // 13 for the points comes before 3 and 9 of the images.
    for bz_grid_type in [3, 1] {
        for a in [diag([17, 17, 1]), paper().a] {
            requests.push(Request {
                bz_grid_type,
                lattice: [[f64::NAN; 3]; 3],
                ..with(a)
            });
        }
    }
    requests
}

/// Lists of rotations: groups of the most members, lists that are none, and entries
/// about their limits.
fn lists() -> Vec<Request> {
    let listed = |rotations: Vec<MatI>, flags| Request {
        rotations,
        flags,
        ..paper()
    };
    let mut requests = Vec::new();
    // Each keeps the grid. Of 24 without the inversion time reversal makes 48.
    for (group, a) in [
        (CUBIC.clone(), diag([2, 2, 2])),
        (closure(&[FOURFOLD, THREEFOLD]), diag([2, 2, 2])),
        (HEXAGONAL.clone(), diag([2, 2, 1])),
    ] {
        for flags in [0, 1] {
            requests.push(Request {
                a,
                ..listed(group.clone(), flags)
            });
        }
    }
    // No groups: on the grid of the paper, and where 13 for the points would come next.
    for a in [paper().a, diag([17, 17, 1])] {
        for list in failures() {
            requests.push(Request {
                a,
                ..listed(list, 0)
            });
        }
    }
    requests.push(listed(half_a_group(), 0));
    requests.push(listed(half_a_group(), 1));
    for (count, flags) in [(25, 1), (49, 0), (49, 1)] {
        requests.push(listed(shears(count), flags));
    }
    for count in [ROTATIONS, ROTATIONS + 1] {
        requests.push(listed(vec![[[0; 3]; 3]; count], 3));
    }
    // A reflection is a group with the identity, whatever its entry; a shear is none,
    // which is told before the limit of transforming and after that of the call.
    for entry in [TRANSFORMED_ENTRY, ROTATION_ENTRY] {
        for entry in [entry, entry + 1, -entry, -entry - 1] {
            for last in [-1, 1] {
                let rotation = [[1, 0, 0], [0, 1, 0], [entry, 0, last]];
                requests.push(listed(vec![IDENTITY, rotation], 0));
            }
        }
    }
    requests
}

/// By the diagonalising, the transforming and the images, some of them just not.
fn refused() -> Vec<Request> {
    let of_lattice = |lattice| Request { lattice, ..paper() };
    let over = LATTICE_ENTRY.next_up();
    let mut requests = vec![
        with(diag([0, 1, 1])),
        with(SMALLEST[0]),
        with(SMALLEST[1]),
        with(INSIDE[0]),
    ];
    // Axes of unequal numbers, and of equal ones; without the identity 18 comes first.
    for numbers in [[2, 1, 1], [1, 2, 4], [3, 3, 1]] {
        for rotations in [vec![IDENTITY, EXCHANGE], vec![EXCHANGE]] {
            requests.push(Request {
                rotations,
                ..with(diag(numbers))
            });
        }
    }
    requests.extend(
        [
            diag_d([LATTICE_ENTRY; 3]),
            diag_d([1.0, over, 1.0]),
            diag_d([1.0, 1.0, f64::NEG_INFINITY]),
            diag_d([1.0, 1.0, 0.0]),
            diag_d([1e-120; 3]),
            // A search range past its limit, and one that holds nothing.
            sheared(13.0),
            diag_d([1e-100; 3]),
        ]
        .map(of_lattice),
    );
    requests
}

/// Matrices and lattices of 1,023, 1,024 and 1,025 images.
pub const CROWDED: [(MatI, MatD); 3] = [
    (
        [[1, 0, 0], [0, 16, 0], [0, 0, 16]],
        [[18.0, 0.0, 0.0], [0.0, 4.5, 0.0], [0.0, 0.0, 1.0]],
    ),
    (
        [[2, 0, 0], [0, 10, 0], [0, 0, 10]],
        [[20.0, 0.0, 0.0], [0.0, 1.0, -1.0], [0.0, 0.0, 1.0]],
    ),
    (
        [[1, 0, 0], [0, 15, 0], [0, 0, 15]],
        [[18.0, -0.25, 0.0], [0.0, 2.75, 0.75], [0.0, 0.0, 1.0]],
    ),
];

/// The most images that a job may have, and one more.
fn images() -> Vec<Request> {
    let mut requests = Vec::new();
    for bz_grid_type in TYPES {
        requests.extend(CROWDED.map(|(a, lattice)| Request {
            lattice,
            bz_grid_type: bz_grid_type as u32,
            ..with(a)
        }));
    }
    requests
}

#[cfg(test)]
mod tests {
    use phonors::snf3x3::snf3x3;

    use super::*;
    use crate::bz_grid_addresses::tables;
    use crate::inputs::images::Images;
    use crate::limits::JOB_IMAGES;

    #[test]
    fn crowded_jobs() {
        for ((a, lattice), images) in CROWDED.into_iter().zip(JOB_IMAGES - 1..) {
            let snf = snf3x3(a).unwrap();
            for bz_grid_type in TYPES {
                let given = Images {
                    q: snf.q,
                    ..Images::new(snf.d_diag, lattice, bz_grid_type)
                };
                assert_eq!(tables(&given).unwrap().grg.len(), images);
            }
        }
    }
}
