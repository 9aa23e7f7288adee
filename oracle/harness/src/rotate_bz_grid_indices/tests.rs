//! The rotation of many images, by the Rust alone and beside the port.

use phonors::common::{Vec3I, IDENTITY, INVERSION};

use super::*;
use crate::chain::{Port, Rust, Side};
use crate::compare;
use crate::function::Input;
use crate::inputs::images::{Images, DENSE, SPARSE};
use crate::inputs::lattices::REGULAR;
use crate::inputs::matrices::diag;
use crate::inputs::tables::LentTables;
use crate::limits::ADDRESS;
use crate::random::Random;
use crate::refusals::{ACCEPTED, BAD_INDEX, REFUSED_PLACE, WRONG_LENGTH};
use crate::rotate_bz_grid_index::RotateBzGridIndex;
use crate::vectors;

/// The Rust's answer, and both outputs.
fn asked(input: &BurstInput) -> (i64, [Vec<i64>; 2]) {
    let (answer, outputs) = Rust::called::<RotateBzGridIndices>(input);
    (answer, outputs.slices.try_into().expect("two slices"))
}

fn burst(d: Vec3I, bz_grid_type: i64, rotation: [[i64; 3]; 3], indices: &[i64]) -> BurstInput {
    let tables = LentTables::of(&Images::new(d, REGULAR[0], bz_grid_type)).unwrap();
    BurstInput::new(indices, RotateInput::new(0, rotation, &tables, [0; 3]))
}

/// Images and fallbacks of one burst, again and again; a fallback may be 8·N.
#[test]
fn images_of_a_small_grid() {
    // The images are at 0, -1 and 1.
    let told = |d, bz_grid_type, rotation| {
        let (answer, told) = asked(&burst(d, bz_grid_type, rotation, &[2, 0, 1, 2, 1]));
        assert_eq!(answer, 0);
        told
    };
    let none = vec![0; 5];
    let some = vec![1, 0, 1, 1, 1];
    for bz_grid_type in [SPARSE, DENSE] {
        let [out, fallbacks] = told([2, 1, 1], bz_grid_type, INVERSION);
        assert_eq!((out, fallbacks), (vec![1, 0, 2, 1, 2], none.clone()));
    }
    let dense = told([1, 2, 1], DENSE, diag([1, 3, 1]));
    assert_eq!(dense, [vec![1, 0, 1, 1, 1], some.clone()]);
    let sparse = told([1, 2, 1], SPARSE, diag([1, 3, 1]));
    assert_eq!(sparse, [vec![16, 0, 16, 16, 16], some]);
}

/// Each refusal before those that would follow it.
#[test]
fn the_order_of_the_refusals() {
    let single = RotateInput {
        index: 0,
        rotation: vec![100_001; 8],
        addresses: vec![ADDRESS + 1; 4].into(),
        map: vec![].into(),
        table: vec![0; 6],
        d: vec![0; 4],
        ps: vec![2; 2],
        bz_grid_type: 0,
    };
    for indices in [&[0, 5][..], &[]] {
        let mut input = BurstInput::new(indices, single.clone());
        input.places = [3, 4];
        let mut expect = |number, change: &dyn Fn(&mut BurstInput)| {
            let refused = input.places.map(|places| vec![-1; places]);
            assert_eq!(asked(&input), (number, refused));
            change(&mut input);
        };
        expect(13, &|input| input.single.rotation.push(1));
        expect(13, &|input| {
            input.single.addresses = vec![ADDRESS + 1; 3].into()
        });
        expect(13, &|input| input.single.d.truncate(3));
        expect(13, &|input| input.single.ps.push(2));
        expect(13, &|input| input.single.table.push(2));
        expect(13, &|input| input.places[0] = input.indices.len());
        expect(13, &|input| input.places[1] = input.indices.len());
        expect(3, &|input| {
            input.single.rotation = IDENTITY.as_flattened().to_vec()
        });
        expect(3, &|input| input.single.d.fill(1));
        expect(3, &|input| input.single.ps.fill(0));
        expect(9, &|input| input.single.bz_grid_type = 2);
        expect(17, &|input| input.single.table[..3].fill(1));
        if indices.is_empty() {
            assert_eq!(asked(&input), (0, [vec![], vec![]]));
            continue;
        }
        expect(14, &|input| {
            input.single.addresses = vec![ADDRESS; 3].into()
        });
        expect(14, &|input| input.single.map = vec![0, 1].into());
        expect(14, &|input| input.indices[1] = 0);
        assert_eq!(asked(&input), (0, [vec![0; 2], vec![0; 2]]));
    }
}

/// Document 02's words, of the calls of one side: each place is what the single call tells for
/// its index, or the burst is refused as the first of them that is. Without an index it is
/// refused as the single call of any index is before that is looked at.
fn burst_singles<S: Side>(input: &BurstInput) {
    let single = |input: RotateInput| S::called::<RotateBzGridIndex>(&input);
    let singles: Vec<(i64, Outputs)> = input.singles().map(single).collect();
    let mut answers = singles.iter().map(|(answer, _)| *answer);
    let first = answers.find(|answer| *answer != ACCEPTED);
    let nowhere = RotateInput {
        index: -1,
        ..input.single.clone()
    };
    let tested = Some(single(nowhere).0).filter(|number| *number != BAD_INDEX);
    let right = input.places == [input.indices.len(); 2];
    let refused = if right {
        first.or(tested)
    } else {
        Some(WRONG_LENGTH)
    };
    let told = |k: usize| singles.iter().map(|(_, single)| single.told[k]).collect();
    let slices = match refused {
        None => [told(0), told(1)],
        Some(_) => input.places.map(|places| vec![REFUSED_PLACE; places]),
    };
    let (answer, outputs) = S::called::<RotateBzGridIndices>(input);
    assert_eq!(answer, refused.unwrap_or(ACCEPTED), "{input:?}");
    assert_eq!(outputs.slices, slices, "{input:?}");
}

#[test]
fn every_place_is_the_single_call() {
    let [mut random, mut records] = [1, 2].map(Random::new);
    let at_limits = BurstInput::at_limits();
    let any = (0..1_000).map(|_| compare::any(&mut random, &mut records));
    for input in at_limits.into_iter().chain(any) {
        burst_singles::<Port>(&input);
        burst_singles::<Rust>(&input);
    }
}

/// What happens to a burst: whether there is no index; which kinds of answers there are;
/// where the first refused index stands.
fn kind(input: &BurstInput) -> (i64, i64, &'static str) {
    let (answer, [_, fallbacks]) = asked(input);
    let bz_grid_type = input.single.bz_grid_type;
    let count = input.indices.len();
    if count == 0 {
        return (answer, 0, "no index");
    }
    match answer {
        ACCEPTED if !fallbacks.contains(&1) => (answer, bz_grid_type, "images"),
        ACCEPTED if !fallbacks.contains(&0) => (answer, bz_grid_type, "fallbacks"),
        ACCEPTED => (answer, bz_grid_type, "both"),
        BAD_INDEX => {
            let given = Given::of(&input.single).expect("right lengths");
            let mut indices = input.indices.iter();
            let first = indices.position(|&index| given.rotated(index).is_err());
            match first.expect("a refused index") {
                0 => (answer, 0, "first"),
                place if place == count - 1 => (answer, 0, "last"),
                _ => (answer, 0, "between"),
            }
        }
        _ => (answer, 0, "refused"),
    }
}

fn count(kinds: &[(i64, i64, &'static str)], wanted: (i64, i64, &'static str)) -> usize {
    kinds.iter().filter(|&&kind| kind == wanted).count()
}

/// How many of each kind are met at random, and how many stand at the limits.
const KINDS: [((i64, i64, &str), [usize; 2]); 18] = [
    ((0, SPARSE, "images"), [400, 25]),
    ((0, SPARSE, "both"), [200, 40]),
    ((0, SPARSE, "fallbacks"), [250, 25]),
    ((0, DENSE, "images"), [400, 35]),
    ((0, DENSE, "both"), [250, 25]),
    ((0, DENSE, "fallbacks"), [300, 50]),
    ((0, 0, "no index"), [200, 8]),
    ((3, 0, "no index"), [10, 10]),
    ((9, 0, "no index"), [30, 10]),
    ((13, 0, "no index"), [15, 20]),
    ((17, 0, "no index"), [30, 15]),
    ((3, 0, "refused"), [80, 20]),
    ((9, 0, "refused"), [30, 12]),
    ((13, 0, "refused"), [200, 80]),
    ((14, 0, "first"), [400, 100]),
    ((14, 0, "between"), [250, 60]),
    ((14, 0, "last"), [150, 30]),
    ((17, 0, "refused"), [400, 50]),
];

#[test]
fn every_kind_is_met() {
    let [mut random, mut records] = [1, 2].map(Random::new);
    let any = (0..5_000).map(|_| kind(&compare::any(&mut random, &mut records)));
    let any: Vec<_> = any.collect();
    let at_limits: Vec<_> = BurstInput::at_limits().iter().map(kind).collect();
    for (wanted, [least, least_at_limits]) in KINDS {
        let met = [count(&any, wanted), count(&at_limits, wanted)];
        assert!(
            met[0] >= least && met[1] >= least_at_limits,
            "{wanted:?}: {met:?}"
        );
    }
}

/// Repeats stand beside each other and apart, and long bursts have many.
#[test]
fn indices_repeat() {
    let mut random = Random::new(1);
    let repeats = |input: &BurstInput| {
        let mut indices = input.indices.clone();
        indices.sort();
        indices.windows(2).any(|pair| pair[0] == pair[1])
    };
    let any = (0..1_000).map(|_| BurstInput::random(&mut random));
    let met = any.filter(|input| asked(input).0 == ACCEPTED && repeats(input));
    assert!(met.count() > 200);
}

/// A port that is wrong.
type Called = fn(&BurstInput, &mut Outputs) -> i64;

fn rust(input: &BurstInput, outputs: &mut Outputs) -> i64 {
    RotateBzGridIndices::oracle(input, outputs)
}

/// The Rust, with other indices.
fn with(input: &BurstInput, outputs: &mut Outputs, index: fn(i64) -> i64) -> i64 {
    let indices = input.indices.iter().map(|&asked| index(asked)).collect();
    let input = BurstInput {
        indices,
        ..input.clone()
    };
    rust(&input, outputs)
}

/// Writes what is told of each index, as far as it goes.
fn write(outputs: &mut Outputs, told: impl Iterator<Item = [i64; 2]>) {
    for (place, told) in told.enumerate() {
        for (slice, told) in outputs.slices.iter_mut().zip(told) {
            slice[place] = told;
        }
    }
}

/// What is told of each index of a burst that is refused by one.
fn rotated(input: &BurstInput) -> impl Iterator<Item = Result<[i64; 2], i64>> + '_ {
    let given = Given::of(&input.single).expect("right lengths");
    input.indices.iter().map(move |&index| given.rotated(index))
}

/// Tells no fallback; exchanges the outputs; leaves a refused burst as far as it came; passes
/// over what is refused; takes an index by its low bits, or by its size; makes no test without
/// an index; lets outputs be longer; tells an index once.
const WRONG: [Called; 9] = [
    |input, outputs| {
        let answer = rust(input, outputs);
        if answer == ACCEPTED {
            outputs.slices[1].fill(0);
        }
        answer
    },
    |input, outputs| {
        let answer = rust(input, outputs);
        if answer == ACCEPTED {
            outputs.slices.swap(0, 1);
        }
        answer
    },
    |input, outputs| {
        let answer = rust(input, outputs);
        if answer == BAD_INDEX {
            write(outputs, rotated(input).map_while(Result::ok));
        }
        answer
    },
    |input, outputs| {
        let answer = rust(input, outputs);
        if answer != BAD_INDEX {
            return answer;
        }
        let passed = |told: Result<_, _>| told.unwrap_or([REFUSED_PLACE; 2]);
        write(outputs, rotated(input).map(passed));
        ACCEPTED
    },
    |input, outputs| with(input, outputs, |index| i64::from(index as i32)),
    |input, outputs| with(input, outputs, i64::saturating_abs),
    |input, outputs| match rust(input, outputs) {
        _ if input.indices.is_empty() && outputs.slices.iter().all(Vec::is_empty) => ACCEPTED,
        answer => answer,
    },
    |input, outputs| {
        let count = input.indices.len();
        if outputs.slices.iter().any(|slice| slice.len() < count) {
            return rust(input, outputs);
        }
        let mut exact = Outputs::slices(&[count; 2], 0);
        let answer = rust(input, &mut exact);
        for (slice, exact) in outputs.slices.iter_mut().zip(&exact.slices) {
            slice.fill(REFUSED_PLACE);
            slice[..count].copy_from_slice(exact);
        }
        answer
    },
    |input, outputs| {
        let answer = rust(input, outputs);
        for (place, index) in input.indices.iter().enumerate() {
            if answer == ACCEPTED && input.indices[..place].contains(index) {
                outputs.slices[0][place] = REFUSED_PLACE;
            }
        }
        answer
    },
];

struct Wrong<const PORT: usize>;

impl<const PORT: usize> Function for Wrong<PORT> {
    type Input = BurstInput;

    fn outputs(input: &BurstInput) -> Outputs {
        RotateBzGridIndices::outputs(input)
    }

    fn port(input: &BurstInput, outputs: &mut Outputs) -> i64 {
        WRONG[PORT](input, outputs)
    }

    fn oracle(input: &BurstInput, outputs: &mut Outputs) -> i64 {
        rust(input, outputs)
    }
}

/// By the cases at the limits alone.
#[test]
fn wrong_ports_are_told() {
    let cases = BurstInput::at_limits().len() as u64;
    let differences = [
        compare::run::<Wrong<0>>(cases, 1),
        compare::run::<Wrong<1>>(cases, 1),
        compare::run::<Wrong<2>>(cases, 1),
        compare::run::<Wrong<3>>(cases, 1),
        compare::run::<Wrong<4>>(cases, 1),
        compare::run::<Wrong<5>>(cases, 1),
        compare::run::<Wrong<6>>(cases, 1),
        compare::run::<Wrong<7>>(cases, 1),
        compare::run::<Wrong<8>>(cases, 1),
    ];
    assert!(
        differences.iter().all(|&count| count > 5),
        "{differences:?}"
    );
}

/// All at the limits, one of them whole, and some at random.
#[test]
fn vectors_of_every_kind() {
    let lines = vectors::lines::<RotateBzGridIndices>(1);
    vectors::text(1, &lines);
    assert!(lines.len() > BurstInput::at_limits().len());
    let indices = "7 1 1 1 0 2 2 1 9 3 0 0 0 1 0 0 0 1";
    let table = "9 0 0 0 -1 0 0 1 0 0 3 0 1 3 7 2 1 1 0 0 0 2";
    let outs = "7 1 1 1 0 1 1 1 7 1 1 1 0 1 1 1";
    let line = format!("{indices} {table} 3 2 1 1 3 0 0 0 2 0 {outs}");
    assert!(lines.contains(&line));
}

/// What the bench takes is accepted without a fallback.
#[test]
fn typical_bursts() {
    let mut random = Random::new(1);
    for input in [BurstInput::sparse, BurstInput::dense, BurstInput::typical] {
        let input = input(&mut random);
        let (answer, [_, fallbacks]) = asked(&input);
        assert_eq!((answer, fallbacks), (0, vec![0; 4_000]));
    }
}
