use std::sync::Arc;

use phonors::common::IDENTITY;

use super::*;
use crate::bz_triplets_at_q::BzTripletsAtQ;
use crate::chain::{Port, Rust, Side};
use crate::function::Input;
use crate::inputs::conversions_at_limits::nine_images;
use crate::inputs::images;
use crate::inputs::lattices::{self, REGULAR};
use crate::inputs::lent_triplets::{places_for, TripletsInput};
use crate::inputs::standing::{breakable, Lists};
use crate::random::Random;
use crate::refusals::{ACCEPTED, OUTSIDE_LIMITS, WRONG_LENGTH};
use crate::vectors;

fn asked(input: &ConvertInput) -> (i64, Outputs) {
    Rust::called::<ConvertBzGrid>(input)
}

#[test]
fn the_point_of_the_paper() {
    let converted = |bz_grid_type| {
        let images = Images::new([2, 1, 1], REGULAR[0], bz_grid_type);
        let (answer, outputs) = asked(&ConvertInput::made(&images).expect("accepted"));
        assert_eq!(answer, 0);
        outputs
    };
    let addresses = vec![0, 0, 0, -1, 0, 0, 1, 0, 0];
    let Outputs { slices, told } = converted(SPARSE);
    assert_eq!(slices, [addresses.clone(), vec![0, 1, 3], vec![0, 1, 1]]);
    assert_eq!(told, [9, 3, 3, 2, 1, 1, 0, 0, 0, 2]);
    let Outputs { slices, told } = converted(DENSE);
    let mut map = vec![16; 16];
    [map[0], map[1], map[3]] = [0, 2, 1];
    map.extend([0, 0, 1]);
    assert_eq!(slices, [addresses, map, vec![0, 1, 1]]);
    assert_eq!(told, [9, 19, 3, 2, 1, 1, 0, 0, 0, 1]);
}

/// An image stands at the place that is the mark of an empty place.
#[test]
fn an_image_under_the_mark() {
    let sparse = nine_images(SPARSE);
    assert_eq!(sparse.map, [0, 8, 6, 8, 2, 8, 8, 8, 0, 8]);
    assert_eq!(sparse.addresses[24..], [0, -1, -1]);
    let (answer, Outputs { slices, .. }) = asked(&nine_images(DENSE));
    assert_eq!((answer, &slices[1]), (0, &sparse.map));
    for place in 0..8 {
        let mut other = sparse.clone();
        (other.map[place], other.made) = ((other.map[place] + 1) % 9, None);
        assert_eq!(asked(&other).0, 19);
    }
}

/// The lists that are read, laid out, are the Rust's tables of either type.
#[test]
fn lists_of_the_rusts_tables() {
    let mut random = Random::new(1);
    let mut over = 0;
    for _ in 0..2_000 {
        let images = match random.below(3) {
            0 => images::crowded(&mut random),
            _ => images::any(&mut random),
        };
        let Some(input) = ConvertInput::made(&images) else {
            continue;
        };
        let given = Given::of(&input).expect("a table that can be read");
        assert_eq!(given.broken(), []);
        let lists = given.lists();
        for bz_grid_type in TYPES {
            let images = Images {
                bz_grid_type,
                ..images
            };
            let laid_out = laid_out(bz_grid_type, images.d, &lists);
            assert_eq!(tables(&images), Ok(laid_out));
        }
        over += usize::from(input.grg.len() > 8 * given.points());
    }
    assert!(over > 20, "{over}");
}

/// The told part of what an accepted call leaves, as it is handed on.
fn handed_on(outputs: &Outputs, places: [usize; 3]) -> ConvertInput {
    let told = |k: usize| outputs.slices[k][..outputs.told[k] as usize].to_vec();
    ConvertInput {
        table: outputs.told[3..].to_vec(),
        addresses: told(0),
        map: told(1),
        grg: told(2),
        places,
        made: None,
    }
}

fn there_and_back<S: Side>(input: &ConvertInput) -> bool {
    let (answer, outputs) = S::called::<ConvertBzGrid>(input);
    if answer != ACCEPTED {
        return false;
    }
    let given = Given::of(input).expect("an accepted table");
    let [images, map] = [given.grg.len(), given.map.len()];
    let places = [3 * images, map, images];
    let (answer, back) = S::called::<ConvertBzGrid>(&handed_on(&outputs, places));
    let expected = handed_on(&back, places);
    assert_eq!((answer, &expected.table), (0, &input.table), "{input:?}");
    assert_eq!(back.told[..3], places.map(|length| length as i64));
    assert_eq!(expected.addresses, input.addresses[..3 * images]);
    assert_eq!(expected.map, input.map[..map]);
    assert_eq!(expected.grg, input.grg[..images]);
    true
}

#[test]
fn back_again_is_the_same_table() {
    let mut random = Random::new(1);
    let any: Vec<ConvertInput> = (0..2_000)
        .map(|_| ConvertInput::random(&mut random))
        .collect();
    let inputs = || ConvertInput::at_limits().into_iter().chain(any.clone());
    assert!(inputs().filter(there_and_back::<Rust>).count() > 500);
    assert!(inputs().filter(there_and_back::<Port>).count() > 500);
}

/// The triplets at an image of a point, by their addresses, and all else that is told of them.
fn triplets<S: Side>(input: &ConvertInput, point: usize, other: &TripletsInput) -> [Vec<i64>; 4] {
    let bz_grid_type = input.table[6];
    let q0 = if bz_grid_type == DENSE {
        input.map[point]
    } else {
        point as i64
    };
    let triplets = TripletsInput {
        q0,
        addresses: Arc::new(input.addresses.clone()),
        map: Arc::new(input.map.clone()),
        table: input.table.clone(),
        bz_grid_type,
        ..other.clone()
    };
    let (answer, outputs) = S::called::<BzTripletsAtQ>(&triplets);
    assert_eq!(answer, ACCEPTED);
    let [out, left, left_length, cells] = &outputs.slices[..] else {
        panic!("four slices");
    };
    let address = |&image: &i64| &input.addresses[3 * image as usize..][..3];
    let addresses = out.iter().flat_map(address).copied().collect();
    [addresses, left.clone(), left_length.clone(), cells.clone()]
}

fn same_triplets<S: Side>() {
    let mut random = Random::new(1);
    for _ in 0..400 {
        let lists = Lists::random(&mut random);
        let points = lists.lists.len();
        let input = lists.table(random.pick(&TYPES));
        let (answer, outputs) = S::called::<ConvertBzGrid>(&input);
        assert_eq!(answer, ACCEPTED);
        let class = |_| random.between(0, points as i64);
        let class_map: Vec<i64> = (0..points).map(class).collect();
        let other = TripletsInput {
            q0: 0,
            addresses: Arc::new(vec![]),
            map: Arc::new(vec![]),
            table: vec![],
            places: places_for(&class_map),
            class_map: Arc::new(class_map),
            d: lists.d.to_vec(),
            q: IDENTITY.as_flattened().to_vec(),
            lattice: lattices::lattice(&mut random).as_flattened().to_vec(),
            bz_grid_type: 0,
        };
        let point = random.below(points);
        let converted = handed_on(&outputs, [0; 3]);
        let [one, two] = [&input, &converted].map(|table| triplets::<S>(table, point, &other));
        assert_eq!(one, two, "{input:?}");
    }
}

#[test]
fn the_triplets_of_either_table() {
    same_triplets::<Rust>();
    same_triplets::<Port>();
}

/// Each refusal before those that would follow it.
#[test]
fn the_order_of_the_refusals() {
    let mut input = ConvertInput {
        table: vec![0, 1, 1, 2, 0, 0, 3, 0],
        addresses: vec![ADDRESS + 1; 4],
        map: vec![MAP_VALUE + 1],
        grg: vec![],
        places: [0; 3],
        made: None,
    };
    let mut expect = |number, change: &dyn Fn(&mut ConvertInput)| {
        let mut refused = ConvertBzGrid::outputs(&input);
        refused.answer(|_, _| Err(number));
        assert_eq!(asked(&input), (number, refused));
        change(&mut input);
    };
    expect(13, &|input| input.table.truncate(7));
    expect(13, &|input| input.addresses.truncate(3));
    expect(3, &|input| input.table[0] = 2);
    expect(3, &|input| input.table[3] = 1);
    expect(9, &|input| input.table[6] = 2);
    expect(14, &|input| input.map = vec![1, MAP_VALUE + 1, 3]);
    expect(14, &|input| input.map[1] = 5);
    expect(14, &|input| input.addresses.resize(9, ADDRESS));
    expect(14, &|input| input.addresses.fill(-ADDRESS));
    // The counts do not start at 0, they fall, and nothing folds where it should.
    expect(14, &|input| input.grg = vec![7; 3]);
    expect(19, &|input| input.map = vec![0, 1, 3]);
    expect(19, &|input| {
        input.addresses = vec![0, 0, 0, 1, 0, 0, 1, 0, 0]
    });
    expect(19, &|input| input.addresses[6] = -1);
    expect(19, &|input| input.grg = vec![0, 1, 1]);
    expect(13, &|input| input.places = [9, 19, 3]);
    let (answer, outputs) = asked(&input);
    let told = vec![9, 19, 3, 2, 1, 1, 1, 0, 0, 1];
    assert_eq!((answer, outputs.told), (0, told));
    let mut outputs = Outputs::slices(&[9, 19, 3], 9);
    input.table[0] = 0;
    assert_eq!(ConvertBzGrid::oracle(&input, &mut outputs), 13);
    outputs.told.push(0);
    assert_eq!(ConvertBzGrid::oracle(&input, &mut outputs), OUTSIDE_LIMITS);
}

/// The images that a map counts are as many as its last number says.
#[test]
fn a_map_that_does_not_rise() {
    let three = Lists::new([2, 1, 1], &[&[[0; 3], [2, 0, 0]], &[[1, 0, 0]]]);
    let of_map = |map: &[i64]| {
        let mut input = three.table(DENSE);
        input.map = map.to_vec();
        asked(&input).0
    };
    assert_eq!(
        [[0, 2, 3], [0, 5, 3], [1, 2, 3]].map(|map| of_map(&map)),
        [0, 19, 19]
    );
    assert_eq!(
        [[0, 2, 4], [0, 5, 4], [0, -1, 3]].map(|map| of_map(&map)),
        [14; 3]
    );
}

/// A clause that is broken alone, several of them, or what the table is that is accepted.
fn kind(input: &ConvertInput) -> (i64, i64, String) {
    let (answer, _) = asked(input);
    let Ok(given) = Given::of(input) else {
        return (answer, 0, String::from("refused"));
    };
    let images = given.grg.len();
    let kind = match answer {
        COULD_NOT_STAND => match given.broken()[..] {
            [clause] => format!("{clause:?}"),
            _ => String::from("several"),
        },
        ACCEPTED if images > 8 * given.points() => String::from("over"),
        ACCEPTED if images > given.points() => String::from("more"),
        ACCEPTED => String::from("one each"),
        _ => return (answer, 0, String::from("room")),
    };
    (answer, given.bz_grid_type, kind)
}

fn count(kinds: &[(i64, i64, String)], wanted: &(i64, i64, String)) -> usize {
    kinds.iter().filter(|&kind| kind == wanted).count()
}

/// How many of each kind are met at random, and how many stand at the limits.
const KINDS: [(i64, &str, [usize; 2]); 13] = [
    (0, "one each", [200, 8]),
    (0, "more", [700, 20]),
    (0, "over", [25, 3]),
    (19, "Start", [30, 6]),
    (19, "Rise", [60, 6]),
    (19, "Some", [60, 6]),
    (19, "Folds", [40, 6]),
    (19, "Names", [60, 6]),
    (19, "Once", [40, 6]),
    (19, "Mesh", [50, 30]),
    (19, "several", [60, 2]),
    (14, "refused", [600, 120]),
    (13, "room", [90, 10]),
];

#[test]
fn every_kind_is_met() {
    let mut random = Random::new(1);
    let any = (0..5_000).map(|_| kind(&ConvertInput::random(&mut random)));
    let any: Vec<_> = any.collect();
    let at_limits: Vec<_> = ConvertInput::at_limits().iter().map(kind).collect();
    for (answer, name, [least, least_at_limits]) in KINDS {
        let known = ![BAD_INDEX, WRONG_LENGTH].contains(&answer);
        let types = if known { &TYPES[..] } else { &[0] };
        for &bz_grid_type in types {
            let clause = CLAUSES
                .into_iter()
                .find(|clause| format!("{clause:?}") == name);
            if clause.is_some_and(|clause| !breakable(bz_grid_type, clause)) {
                continue;
            }
            let wanted = (answer, bz_grid_type, String::from(name));
            let met = [count(&any, &wanted), count(&at_limits, &wanted)];
            assert!(
                met[0] >= least && met[1] >= least_at_limits,
                "{wanted:?}: {met:?}"
            );
        }
    }
    for answer in [OUTSIDE_LIMITS, BAD_GRID_TYPE, WRONG_LENGTH] {
        let wanted = (answer, 0, String::from("refused"));
        let met = [count(&any, &wanted), count(&at_limits, &wanted)];
        assert!(met[0] >= 50 && met[1] >= 15, "{wanted:?}: {met:?}");
    }
}

/// All at the limits that have room, the point of the paper first, and some at random.
#[test]
fn vectors_of_every_kind() {
    let lines = vectors::lines::<ConvertBzGrid>(1);
    vectors::text(1, &lines);
    let table = "7 2 1 1 0 0 0 1 9 0 0 0 -1 0 0 1 0 0";
    let map = "19 0 2 16 1 16 16 16 16 16 16 16 16 16 16 16 16 0 0 1 3 0 1 1";
    let outs = "9 0 0 0 -1 0 0 1 0 0 3 0 1 3 3 0 1 1 9 3 3 2 1 1 0 0 0 2";
    assert_eq!(lines[0], format!("{table} {map} 0 {outs}"));
    let listed = ConvertInput::at_limits().len() - 20;
    assert!(lines.len() > listed && lines.len() < ConvertBzGrid::VECTORS + 20);
}

/// What the bench takes is accepted, and made by the image call.
#[test]
fn typical_tables() {
    let mut random = Random::new(1);
    for input in [
        ConvertInput::sparse,
        ConvertInput::dense,
        ConvertInput::typical,
    ] {
        let input = input(&mut random);
        assert_eq!(asked(&input).0, 0);
        assert!(input.made.is_some() && input.grg.len() > 4_096);
    }
}
