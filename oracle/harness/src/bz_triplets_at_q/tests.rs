use phonors::common::IDENTITY;

use super::*;
use crate::function::Input;
use crate::inputs::images::{Images, SPARSE, TYPES};
use crate::inputs::lattices::REGULAR;
use crate::inputs::tables::LentTables;
use crate::limits::{ADDRESS, MAP_VALUE};
use crate::random::Random;
use crate::{compare, vectors};

/// The Rust's answer, and the outputs.
fn asked(input: &TripletsInput) -> (i64, Vec<Vec<i64>>) {
    let mut outputs = BzTripletsAtQ::outputs(input).unlike();
    let answer = BzTripletsAtQ::oracle(input, &mut outputs);
    (answer, outputs.slices)
}

/// The job of the paper, and the triplet of the other class.
#[test]
fn the_point_of_the_paper() {
    for bz_grid_type in TYPES {
        let given = Images::new([1, 1, 3], REGULAR[0], bz_grid_type);
        let tables = LentTables::of(&given).unwrap();
        let input = TripletsInput::new(1, &tables, &[0, 1, 0], IDENTITY, REGULAR[0]);
        let (answer, slices) = asked(&input);
        assert_eq!(answer, 0);
        assert_eq!(slices[0], [1, 0, 2, 1, 1, 1]);
        assert_eq!(slices[1], [1, 0]);
        assert_eq!(slices[2], [0, bits(1.0)]);
        assert_eq!(slices[3], [0, 0, 0, 0, 0, 1]);
    }
}

/// An empty range, also behind one of 2^40 images, leaves -1.
#[test]
fn empty_ranges() {
    for bz_grid_type in TYPES {
        let mut map = if bz_grid_type == SPARSE {
            vec![0; 16]
        } else {
            vec![]
        };
        map.extend([5, 0, MAP_VALUE]);
        let addresses = [[0; 3], [1, 0, 0], [-1, 0, 0]];
        let tables = LentTables::new(&addresses, &map, [2, 1, 1], bz_grid_type);
        let q0 = 1;
        let input = TripletsInput::new(q0, &tables, &[0], IDENTITY, REGULAR[0]);
        let dense_read = if bz_grid_type == SPARSE { 0 } else { 14 };
        let (answer, slices) = asked(&input);
        assert_eq!(answer, dense_read);
        assert_eq!(slices[..2], [vec![-1; 3], vec![-1]]);
        let length = if answer == 0 { 0.0 } else { -1.0 };
        assert_eq!(slices[2], [bits(length)]);
        assert_eq!(slices[3], [-1; 3]);
    }
}

/// Each refusal before those that would follow it.
#[test]
fn the_order_of_the_refusals() {
    let mut input = TripletsInput {
        q0: 2,
        addresses: vec![ADDRESS + 1; 5].into(),
        map: vec![].into(),
        table: vec![2, 2],
        class_map: vec![0, 0].into(),
        d: vec![0; 2],
        q: vec![1_001; 8],
        lattice: vec![f64::NAN; 8],
        bz_grid_type: 4,
        places: [4, 2, 2, 4],
    };
    let mut expect = |number, change: &dyn Fn(&mut TripletsInput)| {
        let (answer, slices) = asked(&input);
        assert_eq!(answer, number);
        assert_eq!(slices[0], vec![-1; input.places[0]]);
        assert_eq!(slices[1], vec![-1; input.places[1]]);
        assert_eq!(slices[2], vec![bits(-1.0); input.places[2]]);
        assert_eq!(slices[3], vec![-1; input.places[3]]);
        change(&mut input);
    };
    expect(13, &|input| input.addresses = vec![ADDRESS + 1; 6].into());
    expect(13, &|input| input.d.push(0));
    expect(13, &|input| input.q.push(1_001));
    expect(13, &|input| input.lattice.push(f64::NAN));
    expect(13, &|input| input.table = vec![2, 1, 1, 5, 6, 7, 4]);
    expect(13, &|input| input.places = [3, 1, 1, 4]);
    expect(13, &|input| input.places = [3, 1, 1, 3]);
    expect(3, &|input| input.d = vec![2, 1, 1]);
    expect(3, &|input| input.q = IDENTITY.as_flattened().to_vec());
    expect(3, &|input| {
        input.lattice = REGULAR[0].as_flattened().to_vec()
    });
    expect(3, &|input| input.q0 = 1);
    expect(9, &|input| (input.bz_grid_type, input.q0) = (2, 2));
    expect(17, &|input| input.table[6] = 2);
    expect(14, &|input| input.q0 = 0);
    expect(14, &|input| {
        input.addresses = vec![0, 0, 0, ADDRESS, 0, 0].into()
    });
    expect(14, &|input| input.map = vec![-1, 1].into());
    expect(14, &|input| input.map = vec![0, 1, 2].into());
    assert_eq!(asked(&input).0, 0);
}

/// Every refusal, and the ways to an answer, type by type.
#[test]
fn every_kind_is_met() {
    let [mut random, mut records] = [1, 2].map(Random::new);
    let mut met = Vec::new();
    for _ in 0..4_000 {
        let input: TripletsInput = compare::any(&mut random, &mut records);
        let (answer, slices) = asked(&input);
        if answer != 0 {
            met.push((answer, 0, 0));
            continue;
        }
        for left in [1, 0, -1] {
            if slices[1].contains(&left) {
                met.push((answer, input.bz_grid_type, left));
            }
        }
    }
    for (kind, least) in [
        ((0, SPARSE, 1), 500),
        ((0, SPARSE, 0), 300),
        ((0, SPARSE, -1), 20),
        ((0, DENSE, 1), 500),
        ((0, DENSE, 0), 300),
        ((0, DENSE, -1), 20),
        ((3, 0, 0), 30),
        ((9, 0, 0), 5),
        ((13, 0, 0), 30),
        ((14, 0, 0), 100),
        ((17, 0, 0), 150),
    ] {
        let count = met.iter().filter(|&&met| met == kind).count();
        assert!(count > least, "{kind:?}: {count}");
    }
}

/// Stops only the walk over the images of q2 at a zero sum.
struct Innermost;

impl Function for Innermost {
    type Input = TripletsInput;

    fn outputs(input: &TripletsInput) -> Outputs {
        BzTripletsAtQ::outputs(input)
    }

    fn port(input: &TripletsInput, outputs: &mut Outputs) -> i64 {
        let answer = BzTripletsAtQ::oracle(input, outputs);
        if (answer, input.bz_grid_type) != (ACCEPTED, DENSE) {
            return answer;
        }
        let (images, _) = input.addresses.as_chunks::<3>();
        let left = outputs.slices[1].clone();
        let (triplets, _) = outputs.slices[0].as_chunks_mut();
        for (triplet, left) in triplets.iter_mut().zip(left) {
            if left != 1 {
                continue;
            }
            // The last of the images of q0 that close with some others.
            let [q0, q1, q2] = triplet.map(|image| image as usize);
            let folds = |a: usize, b: usize| {
                let d = [0, 1, 2].map(|axis| input.d[axis]);
                (0..3).all(|k| (images[a][k] - images[b][k]) % d[k] == 0)
            };
            let of = |q: usize| (0..images.len()).filter(move |&image| folds(image, q));
            for x in of(q0) {
                for y in of(q1) {
                    let closes = |z: &usize| {
                        (0..3).all(|k| images[x][k] + images[y][k] + images[*z][k] == 0)
                    };
                    if let Some(z) = of(q2).find(closes) {
                        *triplet = [x, y, z].map(|image| image as i64);
                    }
                }
            }
        }
        answer
    }

    fn oracle(input: &TripletsInput, outputs: &mut Outputs) -> i64 {
        BzTripletsAtQ::oracle(input, outputs)
    }
}

#[test]
fn all_three_walks_end_at_a_zero_sum() {
    assert!(compare::run::<Innermost>(500, 1) > 20);
}

/// Rounds a quotient of another sign than its remainder's the wrong way.
struct TowardZero;

impl Function for TowardZero {
    type Input = TripletsInput;

    fn outputs(input: &TripletsInput) -> Outputs {
        BzTripletsAtQ::outputs(input)
    }

    fn port(input: &TripletsInput, outputs: &mut Outputs) -> i64 {
        let answer = BzTripletsAtQ::oracle(input, outputs);
        if answer != ACCEPTED {
            return answer;
        }
        let given = Given::of(input, &input.places).unwrap();
        let (triplets, _) = outputs.slices[0].as_chunks();
        let divided = |&triplet: &Vec3I| match given.sum(triplet) {
            Some(sum) => [0, 1, 2].map(|k| sum[k] / given.d[k]),
            None => [-1; 3],
        };
        outputs.slices[3] = triplets.iter().flat_map(divided).collect();
        answer
    }

    fn oracle(input: &TripletsInput, outputs: &mut Outputs) -> i64 {
        BzTripletsAtQ::oracle(input, outputs)
    }
}

/// Only tables that are made up or damaged leave a remainder.
#[test]
fn cells_are_compared() {
    let differences = compare::run::<TowardZero>(2_000, 1);
    assert!((20..500).contains(&differences), "{differences}");
}

/// What the calls before leave has no remainder, and sums to cells of either sign.
#[test]
fn whole_cells() {
    let mut random = Random::new(1);
    let mut met = [0; 3];
    for _ in 0..300 {
        let input = TripletsInput::chained(&mut random);
        let (answer, slices) = asked(&input);
        assert_eq!(answer, ACCEPTED);
        let given = Given::of(&input, &input.places).unwrap();
        let [triplets, cells] = [&slices[0], &slices[3]].map(|slice| slice.as_chunks().0);
        for (&triplet, cell) in triplets.iter().zip(cells) {
            let whole = [0, 1, 2].map(|k| cell[k] * given.d[k]);
            assert_eq!(given.sum(triplet), Some(whole));
            for number in cell {
                met[(number.signum() + 1) as usize] += 1;
            }
        }
    }
    assert!(met.iter().all(|&count| count > 100), "{met:?}");
}

#[test]
fn vectors_of_every_answer() {
    let lines = vectors::lines::<BzTripletsAtQ>(1);
    vectors::text(1, &lines);
    let inputs = TripletsInput::at_limits();
    assert!(lines.len() > inputs.len());
    let met: Vec<i64> = inputs.iter().map(|input| asked(input).0).collect();
    for (answer, least) in [(0, 100), (3, 30), (9, 5), (13, 20), (14, 50), (17, 30)] {
        let count = met.iter().filter(|&&met| met == answer).count();
        assert!(count >= least, "{answer}: {count}");
    }
    let told = |input: &&TripletsInput| {
        let mut outputs = BzTripletsAtQ::outputs(input).unlike();
        TowardZero::port(input, &mut outputs);
        outputs.slices[3] != asked(input).1[3]
    };
    let count = inputs.iter().filter(told).count();
    assert!(count >= 6, "{count}");
}

/// What the bench takes is accepted.
#[test]
fn typical_triplets() {
    let mut random = Random::new(1);
    for input in [
        TripletsInput::sparse,
        TripletsInput::dense,
        TripletsInput::typical,
    ] {
        let input = input(&mut random);
        let (answer, slices) = asked(&input);
        assert!(answer == 0 && slices[1].len() > 100);
    }
}
