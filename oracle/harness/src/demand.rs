//! The third demand of the camera's makers, tried on a finished list: by every
//! operation, every point and every choice of images, in whole numbers and f64.

use std::collections::BTreeSet;

use phonors::common::{MatD, MatI, Vec3I, IDENTITY, INVERSION};

/// What a chain of accepted calls left.
pub struct Finished<'a> {
    /// The transformed list.
    pub rotations: &'a [MatI],
    pub time_reversal: bool,
    pub swappable: bool,
    pub d: Vec3I,
    pub q: MatI,
    pub lattice: MatD,
    /// The images, and the point of each.
    pub addresses: &'a [Vec3I],
    pub grg: &'a [i64],
    /// The point.
    pub q0: i64,
    pub class_map: &'a [i64],
    pub triplets: &'a [Vec3I],
    /// The cell of each triplet's sum.
    pub cells: &'a [Vec3I],
    /// Whether each triplet closes, and else the squared length left over.
    pub left: &'a [Option<f64>],
}

/// What makes a list a group: the identity, no repeats, determinants of 1 or -1, and
/// every product of two members.
pub const CONDITIONS: [fn(&[MatI]) -> bool; 4] = [
    |list| list.contains(&IDENTITY),
    |list| (1..list.len()).all(|i| !list[..i].contains(&list[i])),
    |list| list.iter().all(|m| [1, -1].contains(&determinant(m))),
    |list| {
        let kept = |a| list.iter().all(|b| list.contains(&product(a, b)));
        list.iter().all(kept)
    },
];

/// Whether the demand speaks of a list, and the chain takes it.
pub fn is_group(list: &[MatI]) -> bool {
    CONDITIONS.iter().all(|holds| holds(list))
}

fn product(a: &MatI, b: &MatI) -> MatI {
    [0, 1, 2].map(|i| [0, 1, 2].map(|j| (0..3).map(|k| a[i][k] * b[k][j]).sum()))
}

fn determinant(m: &MatI) -> i64 {
    let [x, y, z] = m;
    let minor = |i: usize, j: usize| y[i] * z[j] - y[j] * z[i];
    x[0] * minor(1, 2) - x[1] * minor(0, 2) + x[2] * minor(0, 1)
}

fn holds(fact: bool, what: &str) -> Result<(), String> {
    fact.then_some(()).ok_or(what.to_string())
}

impl Finished<'_> {
    fn points(&self) -> i64 {
        self.d.iter().product()
    }

    fn address(&self, point: i64) -> Vec3I {
        let [x, y, _] = self.d;
        [point % x, point / x % y, point / (x * y)]
    }

    fn index(&self, address: Vec3I) -> i64 {
        let [r0, r1, r2] = [0, 1, 2].map(|k| address[k].rem_euclid(self.d[k]));
        (r2 * self.d[1] + r1) * self.d[0] + r0
    }

    fn carried(&self, operation: &MatI, point: i64) -> i64 {
        let address = self.address(point);
        self.index(operation.map(|row| (0..3).map(|k| row[k] * address[k]).sum()))
    }

    fn partner(&self, point: i64) -> i64 {
        let [a, b] = [self.q0, point].map(|point| self.address(point));
        self.index([0, 1, 2].map(|k| -a[k] - b[k]))
    }

    /// The operations that keep q0, negatives joined.
    fn operations(&self) -> Vec<MatI> {
        let mut operations = self.rotations.to_vec();
        if self.time_reversal && !operations.contains(&INVERSION) {
            operations.extend(self.rotations.iter().map(|m| product(&INVERSION, m)));
        }
        operations.retain(|operation| self.carried(operation, self.q0) == self.q0);
        operations
    }

    /// Two points bear one number exactly if they are of one class, and it is the lowest.
    fn classes(&self) -> Result<(), String> {
        let operations = self.operations();
        let mut members = vec![0; self.class_map.len()];
        holds(
            self.class_map.len() as i64 == self.points(),
            "a number a point",
        )?;
        for &number in self.class_map {
            let place = usize::try_from(number).ok();
            let count = place.and_then(|place| members.get_mut(place));
            *count.ok_or("a number is no point")? += 1;
        }
        for point in 0..self.points() {
            let carried = operations.iter().map(|m| self.carried(m, point));
            let mut class: BTreeSet<i64> = carried.collect();
            if self.swappable {
                let partners: Vec<i64> = class.iter().map(|&p| self.partner(p)).collect();
                class.extend(partners);
            }
            let number = self.class_map[point as usize];
            holds(
                class.first() == Some(&number),
                "the number is the lowest point",
            )?;
            let same = |&member: &i64| self.class_map[member as usize] == number;
            holds(class.iter().all(same), "a class has one number")?;
            holds(
                members[number as usize] == class.len(),
                "a number has one class",
            )?;
        }
        Ok(())
    }

    /// L·Q·D⁻¹, in the Rust's order.
    fn basis(&self) -> MatD {
        let entry = |i: usize, j: usize| {
            let [x, y, z] = [0, 1, 2].map(|k| self.lattice[i][k] * self.q[k][j] as f64);
            (x + y + z) / self.d[j] as f64
        };
        [0, 1, 2].map(|i| [0, 1, 2].map(|j| entry(i, j)))
    }

    fn squared_length(&self, basis: &MatD, sum: Vec3I) -> f64 {
        let coordinate = |i: usize| {
            let [x, y, z] = [0, 1, 2].map(|k| basis[i][k] * sum[k] as f64);
            x + y + z
        };
        let [x, y, z] = [0, 1, 2].map(|i| coordinate(i) * coordinate(i));
        x + y + z
    }

    /// 0.01 times the largest of column length squared over d squared.
    fn tolerance(&self) -> f64 {
        let column = |k: usize| {
            let [x, y, z] = [0, 1, 2].map(|i| self.lattice[i][k] * self.lattice[i][k]);
            (0.0 + x + y + z) / (self.d[k] * self.d[k]) as f64
        };
        column(0).max(column(1)).max(column(2)) * 0.01
    }

    /// The images of each point.
    fn images(&self) -> Vec<Vec<usize>> {
        let mut images = vec![Vec::new(); self.class_map.len()];
        for (image, &point) in self.grg.iter().enumerate() {
            if let Some(of_point) = images.get_mut(point as usize) {
                of_point.push(image);
            }
        }
        images
    }

    fn sum(&self, choice: [usize; 3]) -> Vec3I {
        let [x, y, z] = choice.map(|image| self.addresses[image]);
        [0, 1, 2].map(|k| x[k] + y[k] + z[k])
    }

    /// By rising number one triplet a class, of images of the three points, whose sum is
    /// its cell times d; it closes if any choice does, and else every other choice is at
    /// least as long, less the tolerance.
    fn lists(&self) -> Result<(), String> {
        let numbers: BTreeSet<i64> = self.class_map.iter().copied().collect();
        holds(self.triplets.len() == numbers.len(), "a triplet a class")?;
        holds(self.left.len() == numbers.len(), "what is left of each")?;
        holds(self.cells.len() == numbers.len(), "the cell of each")?;
        let (basis, tolerance) = (self.basis(), self.tolerance());
        let images = self.images();
        let told = self.left.iter().zip(self.cells);
        for ((&q1, triplet), (left, cell)) in numbers.iter().zip(self.triplets).zip(told) {
            let points = [self.q0, q1, self.partner(q1)];
            let images = points.map(|point| &images[point as usize]);
            let chosen = triplet.map(|image| image as usize);
            let among = |k: usize| images[k].contains(&chosen[k]);
            holds((0..3).all(among), "a triplet has images of its points")?;
            let sum = self.sum(chosen);
            let whole = [0, 1, 2].map(|k| cell[k] * self.d[k]);
            holds(sum == whole, "the sum is the cell times d")?;
            let closes = sum == [0; 3];
            holds(
                closes == left.is_none(),
                "it is told whether the sum closes",
            )?;
            if closes {
                continue;
            }
            let length = self.squared_length(&basis, sum);
            holds(*left == Some(length), "the length left over is told")?;
            for &x in images[0] {
                for &y in images[1] {
                    for &z in images[2] {
                        let sum = self.sum([x, y, z]);
                        holds(sum != [0; 3], "a choice closes")?;
                        let other = self.squared_length(&basis, sum);
                        holds(other >= length - tolerance, "a choice is shorter")?;
                    }
                }
            }
        }
        Ok(())
    }

    /// What of the demand does not hold, if anything.
    pub fn check(&self) -> Result<(), String> {
        self.classes()?;
        self.lists()
    }
}

#[cfg(test)]
mod tests {
    use super::*;
    use crate::inputs::groups::{CUBIC, HEXAGONAL};
    use crate::inputs::lattices::REGULAR;

    /// The job of the paper, whose list is finished by hand.
    fn paper() -> Finished<'static> {
        Finished {
            rotations: &[IDENTITY],
            time_reversal: true,
            swappable: true,
            d: [1, 1, 3],
            q: IDENTITY,
            lattice: REGULAR[0],
            addresses: &[[0, 0, 0], [0, 0, 1], [0, 0, -1]],
            grg: &[0, 1, 2],
            q0: 1,
            class_map: &[0, 1, 0],
            triplets: &[[1, 0, 2], [1, 1, 1]],
            cells: &[[0; 3], [0, 0, 1]],
            left: &[None, Some(1.0)],
        }
    }

    #[test]
    fn the_job_of_the_paper() {
        assert_eq!(paper().check(), Ok(()));
    }

    /// Each fault of a list is seen.
    #[test]
    fn faults() {
        let faults: [fn(&mut Finished); 10] = [
            |list| list.class_map = &[0, 1, 2],
            |list| list.class_map = &[0, 0, 0],
            |list| list.class_map = &[2, 1, 2],
            |list| list.class_map = &[0, 1],
            |list| list.triplets = &[[1, 0, 2]],
            |list| list.triplets = &[[1, 1, 1], [1, 0, 2]],
            |list| list.cells = &[[0; 3]],
            |list| list.cells = &[[0; 3], [0, 0, 3]],
            |list| list.left = &[None, Some(2.0)],
            |list| list.left = &[None, None],
        ];
        for (k, fault) in faults.iter().enumerate() {
            let mut list = paper();
            fault(&mut list);
            assert!(list.check().is_err(), "{k}");
        }
    }

    /// A further image of q0 that closes, or that is shorter.
    #[test]
    fn other_choices() {
        let mut list = paper();
        list.grg = &[0, 1, 2, 1];
        list.addresses = &[[0, 0, 0], [0, 0, 1], [0, 0, -1], [0, 0, -2]];
        assert_eq!(list.check(), Err("a choice closes".into()));
        list.addresses = &[[0, 0, 0], [0, 0, 1], [0, 0, -1], [0, 0, 1]];
        list.swappable = false;
        list.class_map = &[0, 1, 2];
        list.triplets = &[[1, 0, 2], [1, 1, 1], [3, 2, 0]];
        list.cells = &[[0; 3], [0, 0, 1], [0; 3]];
        list.left = &[None, Some(1.0), None];
        assert_eq!(list.check(), Ok(()));
    }

    #[test]
    fn groups() {
        assert!(is_group(&CUBIC) && is_group(&HEXAGONAL));
        assert!(!is_group(&CUBIC[1..]) && !is_group(&CUBIC[..5]));
        assert!(!is_group(&[IDENTITY, IDENTITY]) && !is_group(&[]));
    }
}
