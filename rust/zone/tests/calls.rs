//! What the wrappers add to the exports: lengths, refusals, the room that a caller lends.

use zone::{Refusal, CANDIDATES, JOB_LENGTH, TEXT_LENGTH};

const IDENTITY: [i64; 9] = [1, 0, 0, 0, 1, 0, 0, 0, 1];

#[test]
fn a_wrong_length_is_a_refusal() {
    let (mut d, mut p, mut q) = ([0; 3], [0; 9], [0; 8]);
    let answer = zone::snf3x3(&IDENTITY, &mut d, &mut p, &mut q, &mut []);
    assert_eq!(answer, Err(Refusal::WrongLength));
    assert_eq!((d, p, q), ([-1; 3], [-1; 9], [-1; 8]));
    assert_eq!(zone::hermite3x3(&[], &mut []), Err(Refusal::WrongLength));
}

#[test]
fn refusals_and_their_numbers() {
    let known = |number| Refusal::of_number(number).map(Refusal::number);
    assert!((1..=20).all(|number| known(number) == Some(number)));
    assert!([i64::MIN, -1, 0, 21, i64::MAX]
        .iter()
        .all(|&number| known(number).is_none()));
    assert_eq!(
        Refusal::NotGroup.to_string(),
        "refusal 18: the rotations are no group"
    );
    let refusal: Box<dyn std::error::Error> =
        zone::reciprocal_group(&[], true, &mut [0; 432], &mut [0])
            .unwrap_err()
            .into();
    assert_eq!(refusal.downcast_ref(), Some(&Refusal::NotGroup));
}

#[test]
fn floats_are_lent_too() {
    let (d, q, ps, mut told) = ([2, 1, 1], IDENTITY, [0; 3], [0; 3]);
    zone::bz_grid_sizes(&d, &q, &ps, &IDENTITY.map(|n| n as f64), 2, &mut told).unwrap();
    assert_eq!(told, [9, zone::map_length(2, 2) as i64, 3]);
    let answer = zone::bz_grid_sizes(&d, &q, &ps, &[f64::NAN; 9], 2, &mut told);
    assert_eq!(answer, Err(Refusal::OutsideLimits));

    let mut left_length = [0.; 1];
    let answer = zone::bz_triplets_at_q(
        0,
        &[0; 3],
        &[0, 1],
        &[1, 1, 1, 0, 0, 0, 1],
        &[0],
        &[1; 3],
        &q,
        &[1.; 9],
        2,
        &mut [0; 3],
        &mut [0],
        &mut left_length,
        &mut [0; 3],
    );
    assert_eq!(answer, Err(Refusal::OtherGrid));
    assert_eq!(left_length, [-1.]);
}

/// Of a cell that is known, the point at half a step has two nearest candidates in each direction.
#[test]
fn marks() {
    let inner = [1, 0, 0, 1, 0, 1];
    let mut marks = [0; CANDIDATES];
    zone::mark_candidates(
        &[2, 2, 2],
        &IDENTITY,
        &[0; 3],
        &inner,
        &inner,
        7,
        &mut marks,
    )
    .unwrap();
    assert_eq!(marks.iter().filter(|&&mark| mark == 1).count(), 8);
}

/// Document 01's job file and its listing.
#[test]
fn a_job_file() {
    let mut job = Vec::new();
    let header = [176, 1, 32, 68, 104, 3, 2, 1];
    let a = [3, 0, 0, 0, 1, 0, 0, 0, 1];
    for word in header.into_iter().chain(a).chain(IDENTITY) {
        job.extend((word as i32).to_le_bytes());
    }
    IDENTITY
        .iter()
        .for_each(|&n| job.extend((n as f64).to_le_bytes()));
    assert!(job.len() == 176 && job.len() < JOB_LENGTH);

    let (mut text, mut told) = ([0; TEXT_LENGTH], [0]);
    zone::list(&job, &mut text, &mut told).unwrap();
    let listing = "grid 1 1 3\nmap 0 1 0\nir 2\ntriplet 1 0 2\ntriplet 1 1 1\n";
    assert_eq!(std::str::from_utf8(&text[..told[0] as usize]), Ok(listing));
    assert_eq!(
        zone::list(&job[1..], &mut text, &mut told),
        Err(Refusal::BadHeader)
    );
    assert_eq!((text, told), ([0; TEXT_LENGTH], [-1]));
}

#[test]
fn lengths() {
    assert_eq!(
        [1, 2].map(|grid_type| zone::map_length(grid_type, 8)),
        [73, 9]
    );
    assert_eq!([0, 1, 40, 41].map(zone::sheet_length), [0, 92, 1886, 1978]);
}
