//! What the two calls are lent that make image tables with their lengths known beforehand.

use crate::bz_grid_addresses::{given, tables};
use crate::function::{Input, Line};
use crate::inputs::images::{Images, DENSE, SPARSE, TYPES};
use crate::inputs::lattices::REGULAR;
use crate::inputs::lent;
use crate::inputs::lent_images::{diag_d, sheared, ImagesInput};
use crate::inputs::matrices::diag;
use crate::inputs::records::{any, other};
use crate::random::Random;

/// The lengths of a table in places: addresses, map and grg.
pub type Sizes = [i64; 3];

/// The ins of the image call, which is lent no outputs.
#[derive(Debug)]
pub struct SizesInput(pub ImagesInput);

impl Input for SizesInput {
    fn at_limits() -> Vec<SizesInput> {
        let images = ImagesInput::ins_at_limits();
        images.into_iter().map(SizesInput).collect()
    }

    fn random(random: &mut Random) -> SizesInput {
        SizesInput(ImagesInput::random(random))
    }

    fn typical(random: &mut Random) -> SizesInput {
        SizesInput(ImagesInput::typical(random))
    }

    fn write(&self, line: &mut Line) {
        self.0.write(line);
    }
}

/// The image call's ins and outputs, and the three lengths.
#[derive(Clone, Debug)]
pub struct FillInput {
    pub images: ImagesInput,
    pub sizes: Vec<i64>,
}

impl FillInput {
    /// With the lengths of its own tables; any where it has none.
    pub fn own(images: ImagesInput) -> FillInput {
        let tables = given(&images).and_then(|given| tables(&given));
        let sizes = tables.map_or([3, 2, 1], |tables| tables.sizes());
        FillInput::with(images, sizes)
    }

    pub fn with(images: ImagesInput, sizes: Sizes) -> FillInput {
        FillInput {
            images,
            sizes: sizes.to_vec(),
        }
    }
}

/// The lengths of the other type's tables.
fn of_other_type([addresses, map, images]: Sizes, bz_grid_type: i64) -> Sizes {
    let map = match bz_grid_type {
        SPARSE => (map - 1) / 9 + 1,
        _ => 9 * (map - 1) + 1,
    };
    [addresses, map, images]
}

/// Beside the own lengths of a table: one number off, by one, to a larger one, in its sign,
/// in its high bits or to an end of the range; one image more or less; all three numbers off.
fn others(own: Sizes) -> Vec<Sizes> {
    let mut others = Vec::new();
    for place in 0..own.len() {
        let number = own[place];
        let beside = [number + 1, number - 1, number + 1_000, -number, 0];
        let far = [number | 1 << 32, i64::MIN, i64::MAX];
        for other in beside.into_iter().chain(far) {
            let mut sizes = own;
            sizes[place] = other;
            others.push(sizes);
        }
    }
    let [addresses, map, images] = own;
    others.push([addresses + 3, map, images + 1]);
    others.push([addresses - 3, map, images - 1]);
    others.push([map, addresses, images]);
    others.push([images, map, addresses]);
    others.push(own.map(|number| number + 1));
    others.push(own.map(|number| number - 1));
    others.push(own.map(|number| 2 * number));
    others.push(own.map(|number| -number));
    others.push(own.map(|number| !number));
    others.extend([0, -1, i64::MIN, i64::MAX].map(|number| [number; 3]));
    others
}

/// Other lengths than those of an accepted grid: with the right room, with as much room as
/// they say, more or less than the tables take, and with none.
fn unlike(bz_grid_type: i64) -> Vec<FillInput> {
    let exact = ImagesInput::of(&Images::new([2, 1, 1], REGULAR[0], bz_grid_type));
    let own = exact.places.map(|length| length as i64);
    let mut inputs: Vec<FillInput> = others(own)
        .into_iter()
        .chain([of_other_type(own, bz_grid_type)])
        .map(|sizes| FillInput::with(exact.clone(), sizes))
        .collect();
    let mut lent = |change: &dyn Fn(usize, i64) -> i64| {
        let sizes = [0, 1, 2].map(|k| change(k, own[k]));
        let places = sizes.map(|length| length as usize);
        let images = ImagesInput {
            places,
            ..exact.clone()
        };
        inputs.push(FillInput::with(images, sizes));
    };
    lent(&|_, length| length + 7);
    for output in 0..3 {
        lent(&|k, length| length + i64::from(k == output));
        lent(&|k, length| length - i64::from(k == output));
    }
    lent(&|_, _| 0);
    inputs
}

/// Refused before the lengths are known, one grid for each number, with any lengths.
fn refused_before() -> Vec<FillInput> {
    let plain = Images::new([2, 1, 1], REGULAR[0], DENSE);
    let refused = [
        Images {
            ps: [0, 2, 0],
            ..plain
        },
        Images {
            bz_grid_type: 3,
            ..plain
        },
        Images {
            q: diag([2, 1, 1]),
            ..plain
        },
        Images {
            lattice: diag_d([0.0; 3]),
            ..plain
        },
        Images {
            lattice: sheared(13.0),
            ..plain
        },
    ];
    let sizes = [[9, 3, 3], [0; 3], [-1; 3], [i64::MIN; 3], [i64::MAX; 3]];
    let with = |given: &Images| {
        let images = ImagesInput::of(given);
        sizes.map(|sizes| FillInput::with(images.clone(), sizes))
    };
    refused.iter().flat_map(with).collect()
}

/// Another number of lengths than three, also where a number or the search is refused.
fn counts() -> Vec<FillInput> {
    let plain = Images::new([1; 3], REGULAR[0], DENSE);
    let outside = Images {
        d: [0, 1, 1],
        ..plain
    };
    let skewed = Images {
        lattice: sheared(13.0),
        ..plain
    };
    let mut inputs = Vec::new();
    for given in [plain, outside, skewed] {
        for count in [0, 2, 4] {
            inputs.push(FillInput {
                images: ImagesInput::of(&given),
                sizes: [3, 2, 1, 0][..count].to_vec(),
            });
        }
    }
    inputs
}

/// Takes other lengths, as a rule, and few of another number than three.
fn change(random: &mut Random, input: &mut FillInput) {
    let FillInput { images, sizes } = input;
    match random.below(12) {
        0..=4 => {
            let place = &mut sizes[random.below(3)];
            *place = other(random, *place);
        }
        5 => {
            let more = random.pick(&[1, -1, 2, 10]);
            sizes[0] += 3 * more;
            sizes[2] += more;
        }
        6 => {
            let own = [sizes[0], sizes[1], sizes[2]];
            *sizes = of_other_type(own, images.bz_grid_type).to_vec();
        }
        7 => sizes
            .iter_mut()
            .for_each(|place| *place += random.between(0, 8)),
        8 => *sizes = images.places.map(|length| length as i64).to_vec(),
        9 => sizes.rotate_left(1),
        10 => sizes.iter_mut().for_each(|place| *place = any(random)),
        _ => lent::damage(random, sizes),
    }
}

impl Input for FillInput {
    /// Those of the image call with their own lengths, then others.
    fn at_limits() -> Vec<FillInput> {
        let images = ImagesInput::at_limits().into_iter();
        let mut inputs: Vec<FillInput> = images.map(FillInput::own).collect();
        inputs.extend(TYPES.into_iter().flat_map(unlike));
        inputs.extend(refused_before());
        inputs.extend(counts());
        inputs
    }

    fn random(random: &mut Random) -> FillInput {
        let mut input = FillInput::own(ImagesInput::random(random));
        if random.coin() {
            change(random, &mut input);
        }
        input
    }

    fn typical(random: &mut Random) -> FillInput {
        FillInput::own(ImagesInput::typical(random))
    }

    /// Those of the image call, then the lengths as a slice.
    fn write(&self, line: &mut Line) {
        self.images.write(line);
        line.slice(&self.sizes);
    }
}

#[cfg(test)]
mod tests {
    use super::*;

    #[test]
    fn other_lengths() {
        for own in [[9, 3, 3], [9, 19, 3]] {
            assert!(!others(own).contains(&own));
        }
        assert_eq!(of_other_type([9, 3, 3], DENSE), [9, 19, 3]);
        assert_eq!(of_other_type([9, 19, 3], SPARSE), [9, 3, 3]);
    }
}
