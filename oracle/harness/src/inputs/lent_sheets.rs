//! What `class_sheet` is lent: at the limits, random and damaged.

use crate::bz_triplets_at_q::triplets;
use crate::class_sheet::{places, LINE};
use crate::function::{Input, Line};
use crate::inputs::lent_triplets::{own_places, TripletsInput};
use crate::inputs::{lent, numbers};
use crate::limits::POINTS;
use crate::random::Random;

/// The least and the largest number that the field of an image index holds.
pub const LEAST: i64 = -9_999_999_999;
pub const MOST: i64 = 99_999_999_999;

/// Counts of classes on either side of a full page.
const COUNTS: [usize; 12] = [0, 1, 2, 39, 40, 41, 79, 80, 81, 119, 120, 121];

/// Once in so many cases a number or a weight has six or seven digits.
const LONG: usize = 4_000;

#[derive(Clone, Debug)]
pub struct SheetInput {
    pub class_map: Vec<i64>,
    pub triplets: Vec<i64>,
    /// Places of the sheet that is lent.
    pub places: usize,
}

impl SheetInput {
    /// With a sheet of the right length.
    pub fn new(class_map: &[i64], triplets: &[i64]) -> SheetInput {
        SheetInput {
            class_map: class_map.to_vec(),
            triplets: triplets.to_vec(),
            places: places(own_places(class_map)),
        }
    }

    /// A grid of 256 by 256 by 1 without rotations: each point is a class.
    pub fn full(random: &mut Random) -> SheetInput {
        let class_map: Vec<i64> = (0..POINTS).collect();
        let triplets: Vec<i64> = (0..3 * POINTS).map(|_| image(random)).collect();
        SheetInput::new(&class_map, &triplets)
    }
}

/// A class map of so many classes, of which some have three points: each fourth place
/// holds the number of another.
fn classed(classes: usize) -> Vec<i64> {
    let mut class_map = Vec::new();
    let mut own = 0;
    while own < classes {
        let place = class_map.len() as i64;
        if place % 4 == 3 {
            class_map.push(place / 8 * 4);
        } else {
            class_map.push(place);
            own += 1;
        }
    }
    class_map
}

/// So many small image indices.
fn images(count: usize) -> Vec<i64> {
    (0..count as i64).collect()
}

/// Full pages, short ones and none; the classes of the paper's job.
fn pages() -> Vec<SheetInput> {
    let paper = SheetInput::new(&[0, 1, 0], &[1, 0, 2, 1, 1, 1]);
    let of = |classes| SheetInput::new(&classed(classes), &images(3 * classes));
    let mut inputs = vec![paper];
    inputs.extend(COUNTS.map(of));
    inputs
}

/// Numbers that just fit and that do not, in each field of a triplet, and in the last one
/// of a page or after it.
fn widths() -> Vec<SheetInput> {
    let mut inputs = Vec::new();
    for number in [MOST, MOST + 1, LEAST, LEAST - 1, -1, i64::MIN, i64::MAX] {
        for place in 0..3 {
            let mut triplet = [5; 3];
            triplet[place] = number;
            inputs.push(SheetInput::new(&[0, 0], &triplet));
        }
        inputs.push(SheetInput::new(
            &[2, 1, 2],
            &[0, 0, 0, number, number, number],
        ));
    }
    for (classes, number) in [(40, LEAST), (40, LEAST - 1), (41, MOST), (41, MOST + 1)] {
        let mut triplets = images(3 * classes);
        triplets[3 * classes - 1] = number;
        inputs.push(SheetInput::new(&classed(classes), &triplets));
    }
    inputs
}

/// Class maps with anything in them.
fn any_maps() -> Vec<SheetInput> {
    let [least, most] = [i64::MIN, i64::MAX];
    let maps: [&[i64]; 12] = [
        &[-1],
        &[1],
        &[least],
        &[most],
        &[1, 0],
        &[0, 0, 0, 0, 0, 0, 0, 0, 0, 0, 0, 0],
        &[1, 1, 1],
        &[2, 2, 2],
        &[3, 1, least, 3, -1, 1, 6, 3, 8, most, 1],
        &[5, 6, 7, 8, 4, 5, 5, 4, 8, 9, 10],
        &[0, -1, -2, -3, least, most, least + 1, 6, 0],
        &[1 << 32, 1, 1 << 32 | 1, -(1 << 32), 1, 5],
    ];
    let input = |map: &[i64]| SheetInput::new(map, &images(3 * own_places(map)));
    maps.map(input).to_vec()
}

/// Lengths that are wrong by a place, a line or the lines of the pages, where a number
/// would be refused.
fn lengths() -> Vec<SheetInput> {
    let refused = |length| {
        let mut triplets = images(length);
        triplets.iter_mut().take(1).for_each(|x| *x = i64::MIN);
        triplets
    };
    let mut inputs = Vec::new();
    for classes in [0, 1, 41] {
        let right = SheetInput::new(&classed(classes), &refused(3 * classes));
        let (places, triplets) = (right.places, right.triplets.len());
        let lines = LINE * classes;
        let less = places.saturating_sub(1);
        for wrong in [0, lines, less, places + 1, places + LINE] {
            inputs.push(SheetInput {
                places: wrong,
                ..right.clone()
            });
        }
        let less = triplets.saturating_sub(1);
        for wrong in [0, less, triplets + 1, triplets + 3] {
            inputs.push(SheetInput {
                triplets: refused(wrong),
                ..right.clone()
            });
        }
    }
    // Without classes some of these lengths are the right ones.
    inputs.retain(|input| input.places + input.triplets.len() > 0);
    inputs
}

/// An image index of any number of digits.
fn image(random: &mut Random) -> i64 {
    random.between(0, 2_363_359_231) >> random.below(32)
}

/// A number that fits its field, of any width and sign.
fn index(random: &mut Random) -> i64 {
    match random.below(8) {
        0 => random.pick(&[LEAST, MOST, -1, 0]),
        1 => random.between(LEAST, MOST),
        2 => random.between(LEAST, 0) >> random.below(34),
        _ => image(random),
    }
}

/// A number that does not fit, most of them by one digit.
fn too_wide(random: &mut Random) -> i64 {
    let any = random.between(MOST + 1, 10 * MOST);
    random.pick(&[LEAST - 1, MOST + 1, -any, any, i64::MIN, i64::MAX])
}

/// What a place may hold that is not its own number: that of a class, as a rule.
fn other(random: &mut Random, numbers: &[i64], length: usize) -> i64 {
    if !numbers.is_empty() && !random.one_in(4) {
        return random.pick(numbers);
    }
    match random.below(4) {
        0 => random.pick(&[-1, i64::MIN, i64::MAX]),
        1 => numbers::number(random),
        _ => random.between(-2, length as i64 + 1),
    }
}

/// A class map with so many own places, or a few more, in any order.
fn any_map(random: &mut Random, classes: usize) -> Vec<i64> {
    let most = random.pick(&[0, 9, classes, 4 * classes]);
    let length = classes + random.below(most + 1);
    let mut own: Vec<bool> = (0..length).map(|place| place < classes).collect();
    if random.coin() {
        random.shuffle(&mut own);
    }
    let places = (0..).zip(&own).filter(|(_, own)| **own);
    let numbers: Vec<i64> = places.map(|(place, _)| place).collect();
    let plain = random.coin() && classes > 0;
    let entry = |(place, own): (i64, &bool)| match own {
        true => place,
        false if plain => random.pick(&numbers),
        false => other(random, &numbers, length),
    };
    (0..).zip(&own).map(entry).collect()
}

fn made_up(random: &mut Random) -> SheetInput {
    let few = random.below(100);
    let many = random.below(600);
    let count = random.pick(&COUNTS);
    let classes = random.pick(&[count, count, few, few, few, many]);
    let class_map = any_map(random, classes);
    let numbers = 3 * own_places(&class_map);
    let triplets: Vec<i64> = (0..numbers).map(|_| index(random)).collect();
    SheetInput::new(&class_map, &triplets)
}

/// A class map and triplets that the Rust makes of it, of finished lists as a rule.
fn finished(random: &mut Random) -> SheetInput {
    loop {
        if let Some(input) = of_triplets(&TripletsInput::random(random)) {
            return input;
        }
    }
}

/// The same of one call, if it is accepted.
pub fn of_triplets(given: &TripletsInput) -> Option<SheetInput> {
    let triplets = triplets(given).ok()?;
    Some(SheetInput::new(&given.class_map, triplets.as_flattened()))
}

/// One class with a number or a weight of about a million.
fn long(random: &mut Random) -> SheetInput {
    let points = 999_999 + random.below(2);
    if random.coin() {
        return SheetInput::new(&vec![0; points], &[index(random); 3]);
    }
    let mut class_map = vec![0; points + 1];
    class_map[0] = -1;
    class_map[points] = points as i64;
    SheetInput::new(&class_map, &[index(random); 3])
}

impl Input for SheetInput {
    fn at_limits() -> Vec<SheetInput> {
        [pages(), widths(), any_maps(), lengths()].concat()
    }

    fn random(random: &mut Random) -> SheetInput {
        if random.one_in(LONG) {
            return long(random);
        }
        let mut input = if random.one_in(3) {
            finished(random)
        } else {
            made_up(random)
        };
        match random.below(40) {
            0..=5 if !input.triplets.is_empty() => {
                let chosen = random.below(input.triplets.len());
                input.triplets[chosen] = too_wide(random);
            }
            6 => lent::damage(random, &mut input.triplets),
            7 => {
                let length = input.triplets.len();
                input.triplets.resize(length + 3, 0);
            }
            8 => input
                .triplets
                .truncate(3 * random.below(input.triplets.len() / 3 + 1)),
            9 => input.places += random.pick(&[1, LINE, LINE + 1]),
            10 => {
                let less = random.pick(&[1, LINE, LINE + 1]);
                input.places = input.places.saturating_sub(less);
            }
            11 => input.places = LINE * own_places(&input.class_map),
            _ => {}
        }
        input
    }

    /// The finished list of the typical grid, at one of its points.
    fn typical(random: &mut Random) -> SheetInput {
        of_triplets(&TripletsInput::typical(random)).expect("accepted")
    }

    /// The slices class_map and triplets.
    fn write(&self, line: &mut Line) {
        line.slice(&self.class_map);
        line.slice(&self.triplets);
    }
}
