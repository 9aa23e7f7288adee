//! What `bz_triplets_at_q` is lent: at the limits, random and damaged.

use std::sync::{Arc, LazyLock};

use phonors::common::{MatD, MatI, Vec3I, IDENTITY};
use phonors::grgrid::grid_index_from_address;
use phonors::triplet_grid::ir_triplets_at_q;

use crate::bz_triplets_at_q::triplets;
use crate::function::{Input, Line};
use crate::inputs::floats::words;
use crate::inputs::images::{self, Images, DENSE, NO_TYPES, SPARSE};
use crate::inputs::lattices::{self, SKEWED};
use crate::inputs::records::{self, Recorded};
use crate::inputs::tables::{self, LentTables, TYPICAL};
use crate::inputs::{grids, groups, lent, matrices, transforms, triplets_at_limits};
use crate::limits::{LATTICE_ENTRY, MAP_VALUE, Q_ENTRY};
use crate::random::Random;
use crate::tests::{fixed, points};

#[derive(Clone, Debug)]
pub struct TripletsInput {
    pub q0: i64,
    pub addresses: Arc<Vec<i64>>,
    pub map: Arc<Vec<i64>>,
    pub table: Vec<i64>,
    pub class_map: Arc<Vec<i64>>,
    pub d: Vec<i64>,
    pub q: Vec<i64>,
    pub lattice: Vec<f64>,
    pub bz_grid_type: i64,
    /// Places of the four outputs that are lent.
    pub places: [usize; 4],
}

/// Choices that a call may have to try.
const CHOICES: i64 = 2_000_000;

/// The same, where it is made again and again.
const FEW_CHOICES: i64 = 2_000;

/// Points of a random grid, but once in so many cases.
const POINTS: usize = 600;
const LARGE: usize = 400;

/// Points of the typical grid, which many rotations keep or few.
pub const TYPICAL_POINTS: [i64; 8] = [0, 1, 18, 273, 290, 1_911, 2_184, 4_095];

/// The class maps of the typical grid at these.
static TYPICAL_CLASSES: LazyLock<Vec<(i64, Arc<Vec<i64>>)>> = LazyLock::new(|| {
    let (_, rotations) = &*TYPICAL;
    let at = |q0| (q0, Arc::new(classes(q0, [16; 3], rotations, [true, true])));
    TYPICAL_POINTS.map(at).to_vec()
});

/// The places of a class map that hold their own number.
pub fn own_places(class_map: &[i64]) -> usize {
    let own = |(place, &class): (usize, &i64)| class == place as i64;
    class_map.iter().enumerate().filter(|&at| own(at)).count()
}

/// The places of the outputs that a class map wants.
pub fn places_for(class_map: &[i64]) -> [usize; 4] {
    let triplets = own_places(class_map);
    [3 * triplets, triplets, triplets, 3 * triplets]
}

/// The classes at a point under a list that the class call takes, else every point by
/// itself.
pub fn classes(
    q0: i64,
    d: Vec3I,
    rotations: &[MatI],
    [reversal, swappable]: [bool; 2],
) -> Vec<i64> {
    match ir_triplets_at_q(q0, d, rotations, reversal, swappable) {
        Ok(classes) => classes.map_triplets,
        Err(_) => (0..d.iter().product()).collect(),
    }
}

impl TripletsInput {
    pub fn new(
        q0: i64,
        tables: &LentTables,
        class_map: &[i64],
        q: MatI,
        lattice: MatD,
    ) -> TripletsInput {
        TripletsInput {
            q0,
            addresses: tables.addresses.clone(),
            map: tables.map.clone(),
            table: records::of(tables.d, [0; 3], tables.bz_grid_type).to_vec(),
            class_map: Arc::new(class_map.to_vec()),
            d: tables.d.to_vec(),
            q: q.as_flattened().to_vec(),
            lattice: lattice.as_flattened().to_vec(),
            bz_grid_type: tables.bz_grid_type,
            places: places_for(class_map),
        }
    }

    /// What the calls before leave.
    pub fn chained(random: &mut Random) -> TripletsInput {
        chained(random).0
    }

    /// The triplets of the typical grid with tables of one type.
    pub fn sparse(random: &mut Random) -> TripletsInput {
        TripletsInput::of_typical(random, 0)
    }

    pub fn dense(random: &mut Random) -> TripletsInput {
        TripletsInput::of_typical(random, 1)
    }

    fn of_typical(random: &mut Random, chosen: usize) -> TripletsInput {
        let tables = &TYPICAL.0[chosen];
        let (point, class_map) = &TYPICAL_CLASSES[random.below(TYPICAL_CLASSES.len())];
        let q0 = if tables.bz_grid_type == DENSE {
            tables.map[*point as usize]
        } else {
            *point
        };
        TripletsInput::new(q0, tables, class_map, IDENTITY, SKEWED)
    }

    /// The choices of images that the call tries, at most; a walk that leaves the table
    /// ends there.
    fn choices(&self) -> i64 {
        let Ok((d, points)) = fixed(&self.d).and_then(|d| Ok((d, points(d)?))) else {
            return 0;
        };
        let images = self.addresses.len() as i64 / 3;
        let (base, own) = match self.bz_grid_type {
            SPARSE => (8 * points, 1),
            _ => (0, 0),
        };
        let count = |point: usize| {
            let place = |place: usize| self.map.get(place).copied().unwrap_or(0);
            let [first, end] = [point, point + 1].map(|point| place(base + point));
            end.saturating_sub(first)
                .saturating_add(own)
                .clamp(0, images + 1)
        };
        let at = usize::try_from(self.q0).unwrap_or(0);
        let point = match (self.bz_grid_type, self.addresses.as_chunks().0.get(at)) {
            (DENSE, Some(&address)) => grid_index_from_address(address, d) as usize,
            _ => at,
        };
        let most = (0..points).map(count).max().unwrap_or(0);
        let own = |(place, &class): &(usize, &i64)| class == *place as i64;
        let own = self.class_map.iter().enumerate().filter(own);
        let first: i64 = own.map(|(q1, _)| count(q1)).sum();
        let all = i128::from(first) * i128::from(most) * i128::from(count(point));
        all.try_into().unwrap_or(i64::MAX)
    }
}

impl Recorded for TripletsInput {
    fn record(&mut self) -> &mut Vec<i64> {
        &mut self.table
    }

    fn own(&self) -> Vec<i64> {
        let shift = self.table.get(3..6).unwrap_or_default();
        records::lent(&self.d, shift, self.bz_grid_type)
    }
}

/// A grid with operations of it, or with any that are as many as the class call takes.
fn grid(random: &mut Random) -> (Images, Vec<MatI>) {
    let given = match random.below(4) {
        0 => images::crowded(random),
        _ => images::any(random),
    };
    if random.coin() {
        return (given, groups::group(random, 2));
    }
    loop {
        let group = transforms::grid_group(random);
        let few = points(group.d).is_ok_and(|points| points <= POINTS);
        if few || random.one_in(LARGE) {
            let (d, q) = (group.d, group.q);
            return (Images { d, q, ..given }, group.rotations);
        }
    }
}

/// What the calls before leave, if they accept, for any point or any of its images.
fn chained_on(
    random: &mut Random,
    given: &Images,
    rotations: &[MatI],
) -> Option<(TripletsInput, LentTables)> {
    let tables = LentTables::of(given)?;
    let image = random.below(tables.images());
    let address = tables.addresses.as_chunks().0[image];
    let point = grid_index_from_address(address, given.d);
    let q0 = if given.bz_grid_type == DENSE {
        image as i64
    } else {
        point
    };
    let flags = [random.coin(), random.coin()];
    let class_map = classes(point, given.d, rotations, flags);
    let mut input = TripletsInput::new(q0, &tables, &class_map, given.q, given.lattice);
    input.table[3..6].copy_from_slice(&given.ps);
    Some((input, tables))
}

fn chained(random: &mut Random) -> (TripletsInput, LentTables) {
    loop {
        let (given, rotations) = grid(random);
        if let Some(chained) = chained_on(random, &given, &rotations) {
            return chained;
        }
    }
}

/// Tables of small numbers, a class map of any length, any Q and lattice.
fn made_up(random: &mut Random) -> TripletsInput {
    let tables = tables::made_up(random);
    let points: i64 = tables.d.iter().product();
    let length = random.between(0, 2 * points);
    let any = random.coin();
    let class_map: Vec<i64> = (0..random.pick(&[points, points, length]))
        .map(|place| {
            if any || random.coin() {
                place
            } else {
                random.between(-1, points)
            }
        })
        .collect();
    let q0 = tables.index(random);
    let (q, lattice) = (matrices::entries(random, 3), lattices::lattice(random));
    TripletsInput::new(q0, &tables, &class_map, q, lattice)
}

/// Such tables with a lattice at which a triplet hangs on the last bit of an entry: two
/// lattices with different triplets are brought together.
fn at_edge(random: &mut Random) -> TripletsInput {
    loop {
        let mut input = made_up(random);
        input.lattice = lattices::plain(random).as_flattened().to_vec();
        if !(1..=FEW_CHOICES).contains(&input.choices()) {
            continue;
        }
        let place = random.below(9);
        let with = |entry| {
            let mut input = input.clone();
            input.lattice[place] = entry;
            input
        };
        let mut low = input.lattice[place];
        let largest = input
            .lattice
            .iter()
            .fold(0.0, |most: f64, x| most.max(x.abs()));
        let mut high = random.pick(&[0.0, 0.5, -1.0, 1.0]) * largest.min(LATTICE_ENTRY);
        let triplets_low = triplets(&with(low));
        if input.choices() > FEW_CHOICES || triplets(&with(high)) == triplets_low {
            continue;
        }
        loop {
            let middle = low + (high - low) / 2.0;
            if [low, high].contains(&middle) {
                return with(random.pick(&[low, high]));
            }
            if triplets(&with(middle)) == triplets_low {
                low = middle;
            } else {
                high = middle;
            }
        }
    }
}

/// Changes some of the class map, or its length.
fn damage_classes(random: &mut Random, class_map: &mut Vec<i64>) {
    let length = class_map.len();
    match random.below(5) {
        0 => class_map.truncate(random.below(length + 1)),
        1 => class_map.extend((length as i64..).take(random.below(4) + 1)),
        2 => class_map
            .iter_mut()
            .zip(0..)
            .for_each(|(class, own)| *class = own),
        3 => class_map.clear(),
        _ => {
            for (class, own) in class_map.iter_mut().zip(0..) {
                if random.one_in(4) {
                    *class = random.pick(&[own, own, -1, i64::MIN, i64::MAX, own + 1]);
                }
            }
        }
    }
}

fn damaged(random: &mut Random) -> TripletsInput {
    let (mut input, mut tables) = chained(random);
    match random.below(4) {
        0 => damage_classes(random, Arc::make_mut(&mut input.class_map)),
        1 => {
            let images = tables.images() as i64;
            input.q0 = random.pick(&[-1, images, images - 1, MAP_VALUE, i64::MIN, i64::MAX]);
        }
        _ => {
            tables.damage(random);
            input.addresses = tables.addresses;
            input.map = tables.map;
            input.d = tables.d.to_vec();
            input.bz_grid_type = tables.bz_grid_type;
        }
    }
    input.places = places_for(&input.class_map);
    input
}

impl Input for TripletsInput {
    fn at_limits() -> Vec<TripletsInput> {
        triplets_at_limits::all()
    }

    fn random(random: &mut Random) -> TripletsInput {
        loop {
            let mut input = match random.below(20) {
                0..=3 => made_up(random),
                4..=7 => damaged(random),
                8 => at_edge(random),
                _ => TripletsInput::chained(random),
            };
            match random.below(120) {
                0 => input.d = grids::damaged_diagonal(random).to_vec(),
                1 => input.q[random.below(9)] = random.pick(&[Q_ENTRY, Q_ENTRY + 1, i64::MIN]),
                2 => input.lattice[random.below(9)] = random.pick(&[f64::NAN, 2.0 * LATTICE_ENTRY]),
                3 => input.bz_grid_type = random.pick(&NO_TYPES),
                4 => lent::damage(random, &mut input.d),
                5 => lent::damage(random, &mut input.q),
                6 => input.lattice.resize(random.pick(&[0, 8, 10]), 1.0),
                7 => input.bz_grid_type = SPARSE + DENSE - input.bz_grid_type,
                _ => {}
            }
            if input.choices() <= CHOICES {
                return input.agreeing();
            }
        }
    }

    fn other_record(&mut self, random: &mut Random) {
        records::change(random, &mut self.table);
    }

    fn typical(random: &mut Random) -> TripletsInput {
        let chosen = random.below(2);
        TripletsInput::of_typical(random, chosen)
    }

    /// The point; the slices addresses, map, table, class_map, d and q; the lattice as its
    /// length and two words for each of its floats; the type.
    fn write(&self, line: &mut Line) {
        line.number(self.q0);
        line.slice(&self.addresses);
        line.slice(&self.map);
        line.slice(&self.table);
        line.slice(&self.class_map);
        line.slice(&self.d);
        line.slice(&self.q);
        line.number(self.lattice.len() as i64);
        self.lattice.iter().for_each(|&x| line.numbers(&words(x)));
        line.number(self.bz_grid_type);
    }
}

#[cfg(test)]
mod tests {
    use super::*;

    /// An entry beside has other triplets.
    #[test]
    fn edges() {
        let mut random = Random::new(1);
        for _ in 0..100 {
            let input = at_edge(&mut random);
            let expected = triplets(&input);
            let beside = |place: usize, step: fn(f64) -> f64| {
                let mut input = input.clone();
                input.lattice[place] = step(input.lattice[place]);
                triplets(&input) != expected
            };
            assert!(
                (0..9).any(|place| beside(place, f64::next_up) || beside(place, f64::next_down))
            );
        }
    }

    /// The choices are those that the calls before leave, a few or many.
    #[test]
    fn choices() {
        let mut random = Random::new(1);
        let inputs: Vec<TripletsInput> = (0..500)
            .map(|_| TripletsInput::random(&mut random))
            .collect();
        assert!(inputs.iter().any(|input| input.choices() > 10_000));
        assert!(inputs.iter().all(|input| input.choices() <= CHOICES));
        assert!(inputs.iter().any(|input| input.class_map.is_empty()));
        let longer =
            |input: &&TripletsInput| input.class_map.len() as i64 > input.d.iter().product();
        assert!(inputs.iter().filter(longer).count() > 5);
    }
}
