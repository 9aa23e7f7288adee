use phonors::bzgrid_reordered;
use phonors::common::IDENTITY;
use phonors::grgrid::grid_index_from_address;

use super::*;
use crate::function::Input;
use crate::inputs::images::{self, DENSE, SPARSE, TYPES};
use crate::inputs::lattices::{REGULAR, SKEWED};
use crate::inputs::lent_images::{diag_d, sheared};
use crate::inputs::matrices::diag;
use crate::random::Random;
use crate::refusals::ACCEPTED;
use crate::{compare, vectors};

/// The Rust's answer, and the outputs.
fn asked(input: &ImagesInput) -> (i64, Outputs) {
    let mut outputs = BzGridAddresses::outputs(input).unlike();
    (BzGridAddresses::oracle(input, &mut outputs), outputs)
}

fn answer(given: &Images) -> i64 {
    asked(&ImagesInput::of(given)).0
}

#[test]
fn the_point_of_the_paper() {
    let outputs = |bz_grid_type| {
        let input = ImagesInput::of(&Images::new([2, 1, 1], REGULAR[0], bz_grid_type));
        let (answer, outputs) = asked(&input);
        assert_eq!(answer, 0);
        outputs
    };
    let addresses = vec![0, 0, 0, -1, 0, 0, 1, 0, 0];
    let Outputs { slices, told } = outputs(DENSE);
    assert_eq!(slices, [addresses.clone(), vec![0, 1, 3], vec![0, 1, 1]]);
    assert_eq!(told, [9, 3, 3, 2, 1, 1, 0, 0, 0, 2]);
    let Outputs { slices, told } = outputs(SPARSE);
    let mut map = vec![16; 16];
    [map[0], map[1], map[3]] = [0, 2, 1];
    map.extend([0, 0, 1]);
    assert_eq!(slices, [addresses, map, vec![0, 1, 1]]);
    assert_eq!(told, [9, 19, 3, 2, 1, 1, 0, 0, 0, 1]);
}

/// Places past the told lengths hold -1; one place less is too short.
#[test]
fn lengths_of_the_outputs() {
    for bz_grid_type in TYPES {
        let exact = ImagesInput::of(&Images::new([2, 1, 1], REGULAR[0], bz_grid_type));
        let (_, expected) = asked(&exact);
        let mut longer = exact.clone();
        longer.places = exact.places.map(|length| length + 5);
        let (answer, outputs) = asked(&longer);
        assert_eq!((answer, &outputs.told), (0, &expected.told));
        for (slice, table) in outputs.slices.iter().zip(&expected.slices) {
            assert_eq!(slice[..table.len()], table[..]);
            assert_eq!(slice[table.len()..], [-1; 5]);
        }
        for output in 0..3 {
            let mut shorter = exact.clone();
            shorter.places[output] -= 1;
            let (answer, outputs) = asked(&shorter);
            let mut places = outputs.slices.iter().flatten().chain(&outputs.told);
            assert!(answer == 13 && places.all(|&place| place == -1));
        }
    }
}

#[test]
fn limits_of_the_search() {
    // Half of the range is a tenth of the factor's square and a tenth.
    let of_factor = |factor| answer(&Images::new([1; 3], sheared(factor), DENSE));
    assert_eq!([12.99, -12.99, 13.0, -13.0].map(of_factor), [0, 0, 12, 12]);
    // At the second point alone the range is wide.
    let of_points = |number| answer(&Images::new([1, number, 1], sheared(6.0), SPARSE));
    assert_eq!([1, 2].map(of_points), [0, 12]);
}

/// The dual lengths vanish, so that no candidate is tried but at point 0.
#[test]
fn a_search_that_accepts_nothing() {
    for bz_grid_type in TYPES {
        let of_points = |d| answer(&Images::new(d, diag_d([1e-100; 3]), bz_grid_type));
        assert_eq!([[1; 3], [2, 1, 1], [1, 1, 3]].map(of_points), [0, 12, 12]);
    }
}

/// Each refusal before those that would follow it.
#[test]
fn the_order_of_the_refusals() {
    let mut input = ImagesInput {
        d: vec![0; 2],
        q: vec![1_001; 8],
        ps: vec![2; 4],
        lattice: vec![f64::NAN; 10],
        bz_grid_type: 3,
        places: [0; 3],
    };
    let mut expect = |number, change: &dyn Fn(&mut ImagesInput)| {
        let (answer, outputs) = asked(&input);
        assert_eq!((answer, outputs.told), (number, vec![-1; TOLD]));
        change(&mut input);
    };
    expect(13, &|input| input.d.push(0));
    expect(13, &|input| input.q.push(1_001));
    expect(13, &|input| input.ps.truncate(3));
    expect(13, &|input| input.lattice.truncate(9));
    expect(3, &|input| input.d = vec![1, 2, 1]);
    expect(3, &|input| input.q.fill(1_000));
    expect(3, &|input| input.ps.fill(1));
    expect(3, &|input| input.lattice.fill(1e6));
    expect(9, &|input| input.bz_grid_type = 1);
    expect(10, &|input| input.q = IDENTITY.as_flattened().to_vec());
    expect(11, &|input| {
        input.lattice = sheared(13.0).as_flattened().to_vec()
    });
    expect(12, &|input| {
        input.lattice = sheared(1.0).as_flattened().to_vec()
    });
    expect(13, &|input| input.places = [12, 19, 4]);
    let (answer, outputs) = asked(&input);
    let told = vec![12, 19, 4, 1, 2, 1, 1, 1, 1, 1];
    assert_eq!((answer, outputs.told), (0, told));
    let mut outputs = Outputs::slices(&[12, 19, 4], 3);
    input.d = vec![0; 3];
    assert_eq!(BzGridAddresses::oracle(&input, &mut outputs), 13);
}

#[test]
fn limits_on_both_sides() {
    let plain = Images::new([1; 3], REGULAR[0], DENSE);
    let of_q = |entry| {
        let q = [[1, entry, 0], [0, 1, 0], [0, 0, -1]];
        answer(&Images { q, ..plain })
    };
    assert_eq!([1_000, -1_000, 1_001, -1_001].map(of_q), [0, 0, 3, 3]);
    let over = 1e6f64.next_up();
    let of_entry = |entry| answer(&Images::new([1; 3], diag_d([entry; 3]), DENSE));
    assert_eq!([1e6, -1e6, over, -over].map(of_entry), [0, 0, 3, 3]);
    assert_eq!([f64::NAN, f64::INFINITY].map(of_entry), [3, 3]);
    let of_d = |d| answer(&Images::new(d, REGULAR[0], SPARSE));
    assert_eq!(
        [[256, 1, 1], [257, 1, 1], [41, 40, 40]].map(of_d),
        [0, 3, 3]
    );
    let of_det = |det| {
        let q = diag([1, det, 1]);
        answer(&Images { q, ..plain })
    };
    assert_eq!([1, -1, 2, 0].map(of_det), [0, 0, 10, 10]);
    assert_eq!(of_entry(1e-120), 11);
}

/// Every image folds back to its point, no two are equal, and of those at a place
/// of the doubled mesh the last one stands there.
#[test]
fn what_the_tables_hold() {
    let mut random = Random::new(1);
    let (mut accepted, mut shared) = (0, 0);
    for _ in 0..3_000 {
        let given = match random.below(3) {
            0 => images::crowded(&mut random),
            _ => images::any(&mut random),
        };
        let Ok(tables) = tables(&given) else {
            continue;
        };
        accepted += 1;
        let Tables {
            addresses,
            map,
            grg,
        } = tables;
        let point = |a: &Vec3I| grid_index_from_address(*a, given.d);
        assert!(addresses.iter().map(point).eq(grg.iter().copied()));
        let mut sorted = addresses.clone();
        sorted.sort();
        sorted.dedup();
        assert_eq!(sorted.len(), addresses.len());
        if given.bz_grid_type == SPARSE {
            let mesh = given.d.map(|number| 2 * number);
            let places = mesh.iter().product::<i64>();
            let mut expected = vec![places; places as usize];
            for (k, address) in addresses.iter().enumerate() {
                expected[grid_index_from_address(*address, mesh) as usize] = k as i64;
            }
            assert_eq!(map[..expected.len()], expected);
            let filled = expected.iter().filter(|&&image| image < places).count();
            shared += usize::from(filled < addresses.len());
        }
    }
    assert!(accepted > 1_500 && shared > 50, "{accepted} {shared}");
}

#[test]
fn every_answer_is_met() {
    let mut random = Random::new(1);
    let answers = (0..5_000).map(|_| asked(&ImagesInput::random(&mut random)).0);
    let met: Vec<i64> = answers.collect();
    for (answer, least) in [
        (0, 2_500),
        (3, 200),
        (9, 50),
        (10, 50),
        (11, 100),
        (12, 500),
        (13, 150),
    ] {
        let count = met.iter().filter(|&&met| met == answer).count();
        assert!(count > least, "{answer}: {count}");
    }
}

/// Keeps the first image at each place of the doubled mesh.
struct FirstWins;

impl Function for FirstWins {
    type Input = ImagesInput;

    fn outputs(input: &ImagesInput) -> Outputs {
        BzGridAddresses::outputs(input)
    }

    fn port(input: &ImagesInput, outputs: &mut Outputs) -> i64 {
        let answer = BzGridAddresses::oracle(input, outputs);
        if (answer, input.bz_grid_type) == (ACCEPTED, SPARSE) {
            let mesh = [0, 1, 2].map(|axis| 2 * input.d[axis]);
            let [addresses, map, _] = &mut outputs.slices[..] else {
                panic!("three slices");
            };
            let images = outputs.told[2] as usize;
            let (addresses, _) = addresses.as_chunks();
            for (k, address) in addresses[..images].iter().enumerate().rev() {
                map[grid_index_from_address(*address, mesh) as usize] = k as i64;
            }
        }
        answer
    }

    fn oracle(input: &ImagesInput, outputs: &mut Outputs) -> i64 {
        BzGridAddresses::oracle(input, outputs)
    }
}

#[test]
fn the_last_image_is_compared() {
    assert!((10..200).contains(&compare::run::<FirstWins>(5_000, 1)));
}

/// Adds up the squared length in another order.
struct Reordered;

impl Function for Reordered {
    type Input = ImagesInput;

    fn outputs(input: &ImagesInput) -> Outputs {
        BzGridAddresses::outputs(input)
    }

    fn port(input: &ImagesInput, outputs: &mut Outputs) -> i64 {
        let answer = BzGridAddresses::oracle(input, outputs);
        if answer != ACCEPTED {
            return answer;
        }
        let tables = built!(bzgrid_reordered, &given(input).unwrap()).unwrap();
        outputs.told[..3].copy_from_slice(&tables.sizes());
        answer
    }

    fn oracle(input: &ImagesInput, outputs: &mut Outputs) -> i64 {
        BzGridAddresses::oracle(input, outputs)
    }
}

#[test]
fn rounding_is_compared() {
    assert!((5..100).contains(&compare::run::<Reordered>(5_000, 1)));
}

/// The point of the paper first, and every answer among those at the limits.
#[test]
fn vectors_of_every_answer() {
    let lines = vectors::lines::<BzGridAddresses>(1);
    vectors::text(1, &lines);
    let one = "1072693248 0";
    let lattice = format!("9 {one} 0 0 0 0 0 0 {one} 0 0 0 0 0 0 {one}");
    let ins = format!("3 2 1 1 9 1 0 0 0 1 0 0 0 1 3 0 0 0 {lattice} 2");
    let outs = "9 0 0 0 -1 0 0 1 0 0 3 0 1 3 3 0 1 1 9 3 3 2 1 1 0 0 0 2";
    assert_eq!(lines[0], format!("{ins} 0 {outs}"));
    let inputs = ImagesInput::at_limits();
    assert!(lines.len() > inputs.len());
    // Images that share a place of the doubled mesh.
    let shared = |input: &&ImagesInput| {
        let (answer, Outputs { slices, told }) = asked(input);
        if (answer, input.bz_grid_type) != (ACCEPTED, SPARSE) {
            return false;
        }
        let mesh = 8 * input.d.iter().product::<i64>();
        let filled = |image: &&i64| **image < mesh;
        let map = slices[1][..mesh as usize].iter();
        told[2] > map.filter(filled).count() as i64
    };
    assert!(inputs.iter().filter(shared).count() >= 5);
    let met: Vec<i64> = inputs.iter().map(|input| asked(input).0).collect();
    for (answer, least) in [
        (0, 100),
        (3, 30),
        (9, 10),
        (10, 5),
        (11, 4),
        (12, 20),
        (13, 20),
    ] {
        let count = met.iter().filter(|&&met| met == answer).count();
        assert!(count >= least, "{answer}: {count}");
    }
}

/// What the bench takes is accepted, and the search goes beyond the first
/// candidates.
#[test]
fn typical_grids() {
    let mut random = Random::new(1);
    for input in [
        ImagesInput::sparse,
        ImagesInput::dense,
        ImagesInput::typical,
    ] {
        let input = input(&mut random);
        let (answer, outputs) = asked(&input);
        assert!(answer == 0 && outputs.told[2] >= 4096);
    }
    assert!(
        tables(&Images::new([16; 3], SKEWED, DENSE))
            .unwrap()
            .grg
            .len()
            > 4096
    );
}
