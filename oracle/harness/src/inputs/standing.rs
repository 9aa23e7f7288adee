//! Tables that could stand, whether or not a lattice has such images, and tables that break one
//! clause of document 02.

use phonors::common::Vec3I;

use crate::convert_bz_grid::{laid_out, mesh, Clause, Given};
use crate::inputs::images::{DENSE, SPARSE};
use crate::inputs::lent_conversions::ConvertInput;
use crate::inputs::{grids, records};
use crate::limits::ADDRESS;
use crate::random::Random;

/// The addresses of each point of a grid, of some points several.
#[derive(Clone, Debug)]
pub struct Lists {
    pub d: Vec3I,
    pub ps: Vec3I,
    pub lists: Vec<Vec<Vec3I>>,
}

/// The address of a point among its remainders.
fn own_address([x, y, _]: Vec3I, point: i64) -> Vec3I {
    [point % x, point / x % y, point / (x * y)]
}

impl Lists {
    pub fn new(d: Vec3I, lists: &[&[Vec3I]]) -> Lists {
        Lists {
            d,
            ps: [0; 3],
            lists: lists.iter().map(|list| list.to_vec()).collect(),
        }
    }

    /// Of a small grid: near addresses, of which several fall to one place of the doubled
    /// mesh, or such up to their limits.
    pub fn random(random: &mut Random) -> Lists {
        let d = [(); 3].map(|()| random.between(1, 3));
        let most = random.pick(&[1, 2, 4, 12]);
        let reach = random.pick(&[1, 2, 30, ADDRESS / 4]);
        let list = |point| {
            let own = own_address(d, point);
            let mut list = Vec::new();
            for _ in 0..random.between(1, most) {
                let address = [0, 1, 2].map(|axis| own[axis] + d[axis] * random.within(reach));
                if !list.contains(&address) {
                    list.push(address);
                }
            }
            list
        };
        let lists = (0..d.iter().product()).map(list).collect();
        let ps = grids::shift(random);
        Lists { d, ps, lists }
    }

    /// The table of a type, and its record.
    pub fn table(&self, bz_grid_type: i64) -> ConvertInput {
        let record = records::of(self.d, self.ps, bz_grid_type);
        ConvertInput::of(record, &laid_out(bz_grid_type, self.d, &self.lists))
    }
}

/// A table that breaks a clause, and as a rule no other.
pub fn broken(random: &mut Random, bz_grid_type: i64, clause: Clause) -> ConvertInput {
    let mut lists = Lists::random(random);
    if clause == Clause::Some {
        let point = random.below(lists.lists.len());
        lists.lists[point].clear();
        return lists.table(bz_grid_type);
    }
    let mut input = lists.table(bz_grid_type);
    break_clause(random, &mut input, clause);
    input
}

/// A table that breaks this clause alone.
pub fn broken_alone(random: &mut Random, bz_grid_type: i64, clause: Clause) -> ConvertInput {
    loop {
        let input = broken(random, bz_grid_type, clause);
        if Given::of(&input).is_ok_and(|given| given.broken() == [clause]) {
            return input;
        }
    }
}

/// Changes one place of a table that could stand, or a few, so that a clause is broken.
pub fn break_clause(random: &mut Random, input: &mut ConvertInput, clause: Clause) {
    let d = [input.table[0], input.table[1], input.table[2]];
    let points = d.iter().product::<i64>() as usize;
    let counts = input.map.len() - 1 - points;
    if input.grg.is_empty() {
        return;
    }
    let image = random.below(input.grg.len());
    match clause {
        Clause::Start => {
            // Of type 2 the first image is nobody's then.
            let first = input.map[counts + 1];
            input.map[counts] = random.between(1, first.max(2) - 1);
        }
        Clause::Rise => {
            let place = counts + 1 + random.below(points);
            let last = counts + points;
            let more = random.between(1, 3);
            if place == last {
                input.map[place - 1] = input.map[last] + more;
            } else {
                input.map[place] = input.map[place + 1] + more;
            }
        }
        Clause::Some => {
            let place = counts + random.below(points);
            input.map[place + 1] = input.map[place];
        }
        Clause::Folds => {
            let axis = random.below(3);
            input.addresses[3 * image + axis] += random.pick(&[1, -1]);
        }
        Clause::Names => {
            let named = &mut input.grg[image];
            *named = match random.below(4) {
                0 => *named + 1,
                1 => *named + points as i64,
                2 => !*named,
                _ => records::other(random, *named),
            };
        }
        Clause::Once => {
            let shares = |&other: &usize| other != image && input.grg[other] == input.grg[image];
            let others: Vec<usize> = (0..input.grg.len()).filter(shares).collect();
            if !others.is_empty() {
                let from = 3 * random.pick(&others);
                input.addresses.copy_within(from..from + 3, 3 * image);
            }
        }
        Clause::Mesh => {
            let place = random.below(8 * points);
            let value = &mut input.map[place];
            *value = match random.below(4) {
                0 => *value + 1,
                1 => *value ^ 1,
                2 => 8 * points as i64,
                _ => image as i64,
            };
        }
    }
    let bz_grid_type = input.table[6];
    if bz_grid_type == SPARSE && clause != Clause::Mesh {
        let (addresses, _) = input.addresses.as_chunks();
        let remade = mesh(d, addresses);
        input.map[..remade.len()].copy_from_slice(&remade);
    }
}

/// Whether a table of this type can break a clause.
pub fn breakable(bz_grid_type: i64, clause: Clause) -> bool {
    match clause {
        Clause::Some => bz_grid_type == DENSE,
        Clause::Mesh => bz_grid_type == SPARSE,
        _ => true,
    }
}
