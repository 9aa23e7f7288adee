//! How the cost of the port's calls grows with the points of a grid and with the
//! rotations of a list.

use phonors::common::{matmul_i, MatI, Vec3I, INVERSION};
use phonors::snf3x3::snf3x3;
use phonors::transform_rotations::transform_rotations;

use crate::bench::{alone, Timed};
use crate::bz_grid_addresses::BzGridAddresses;
use crate::bz_grid_fill::BzGridFill;
use crate::bz_grid_sizes::BzGridSizes;
use crate::bz_triplets_at_q::BzTripletsAtQ;
use crate::class_sheet::ClassSheet;
use crate::class_weights::ClassWeights;
use crate::convert_bz_grid::ConvertBzGrid;
use crate::function::Input;
use crate::grgrid::{AllGridAddresses, GridInput, IrGridMap, MapInput};
use crate::grid_index_from_address::{FoldInput, GridIndexFromAddress};
use crate::inputs::chains::{ChainInput, Way};
use crate::inputs::groups::{closure, flat, CUBIC, FOURFOLD, THREEFOLD};
use crate::inputs::images::{Images, TYPES};
use crate::inputs::lattices::REGULAR;
use crate::inputs::lent_bursts::BurstInput;
use crate::inputs::lent_classes::ClassesInput;
use crate::inputs::lent_conversions::ConvertInput;
use crate::inputs::lent_images::ImagesInput;
use crate::inputs::lent_marks::MarksInput;
use crate::inputs::lent_neighbours::NeighboursInput;
use crate::inputs::lent_rotations::RotateInput;
use crate::inputs::lent_sheets::of_triplets;
use crate::inputs::lent_sizes::{FillInput, SizesInput};
use crate::inputs::lent_transforms::TransformInput;
use crate::inputs::lent_triplets::{classes, TripletsInput};
use crate::inputs::lent_weights::WeightsInput;
use crate::inputs::matrices::diag;
use crate::inputs::tables::LentTables;
use crate::inputs::transforms::CELLS;
use crate::ir_triplets_at_q::IrTripletsAtQ;
use crate::mark_candidates::MarkCandidates;
use crate::neighboring_grid_points::NeighboringGridPoints;
use crate::random::Random;
use crate::recip_rotations::{ListInput, ReciprocalPointGroup, ReciprocalRotations};
use crate::reciprocal_group::{GroupInput, ReciprocalGroup};
use crate::rotate_bz_grid_index::RotateBzGridIndex;
use crate::rotate_bz_grid_indices::RotateBzGridIndices;
use crate::rotate_grid_index::{PointInput, RotateGridIndex};
use crate::transform_rotations::TransformRotations;
use crate::whole_job::WholeJob;

/// Grids that the cubic group keeps: cubes of 1,000 to 32,768 points, and a multiple of
/// the face-centred cell, which has 65,536. Even sides: an odd one has no point on the edge.
fn grids() -> Vec<MatI> {
    let sides = [10, 16, 24, 32].map(|side| diag([side; 3]));
    let largest = matmul_i(&CELLS[1], &diag([32; 3]));
    [&sides[..], &[largest]].concat()
}

/// Groups of 1, 8, 24 and 48 rotations.
fn lists() -> Vec<Vec<MatI>> {
    vec![
        closure(&[]),
        closure(&[FOURFOLD, INVERSION]),
        closure(&[FOURFOLD, THREEFOLD]),
        CUBIC.clone(),
    ]
}

/// The neighbours that are asked of each point.
const OFFSETS: [Vec3I; 6] = [
    [1, 0, 0],
    [0, 1, 0],
    [0, 0, 1],
    [-1, 0, 0],
    [0, -1, 0],
    [0, 0, -1],
];

/// Points that a call of one point is timed on.
const SINGLES: usize = 64;

/// A grid with a list of rotations and a type, and what the Rust's calls leave of them. The
/// triplets are those at point 0, which every rotation keeps.
struct Job {
    a: MatI,
    rotations: Vec<MatI>,
    operations: Vec<MatI>,
    images: Images,
    tables: LentTables,
    class_map: Vec<i64>,
}

impl Job {
    fn new(a: MatI, rotations: &[MatI], bz_grid_type: i64) -> Job {
        let diagonal = snf3x3(a).expect("accepted");
        let (d, q) = (diagonal.d_diag, diagonal.q);
        let operations = transform_rotations(rotations, d, q).expect("the grid is kept");
        let images = Images {
            q,
            ..Images::new(d, REGULAR[0], bz_grid_type)
        };
        Job {
            a,
            rotations: rotations.to_vec(),
            tables: LentTables::of(&images).expect("accepted"),
            class_map: classes(0, d, &operations, [false, true]),
            operations,
            images,
        }
    }

    fn points(&self) -> usize {
        self.class_map.len()
    }

    /// Nanoseconds a point of a call on the whole grid.
    fn whole<F: Timed>(&self, input: F::Input) -> f64 {
        alone::<F>(&[input]) / self.points() as f64
    }

    /// Nanoseconds of a call of one point.
    fn single<F: Timed>(&self, input: impl Fn(&mut Random, i64) -> F::Input) -> f64 {
        let mut random = Random::new(1);
        let last = self.points() as i64 - 1;
        let inputs: Vec<F::Input> = (0..SINGLES)
            .map(|_| {
                let point = random.between(0, last);
                input(&mut random, point)
            })
            .collect();
        alone::<F>(&inputs)
    }

    /// Nanoseconds a rotation of a call on the list.
    fn listed<F: Timed>(&self, input: F::Input) -> f64 {
        alone::<F>(&[input]) / self.rotations.len() as f64
    }

    /// As many images as there are points, in any order.
    fn indices(&self) -> Vec<i64> {
        let mut indices: Vec<i64> = (0..self.points() as i64).collect();
        Random::new(1).shuffle(&mut indices);
        indices
    }

    fn rotated(&self, random: &mut Random, index: i64) -> RotateInput {
        let rotation = random.pick(&self.operations);
        RotateInput::new(index, rotation, &self.tables, [0; 3])
    }

    fn triplets(&self) -> TripletsInput {
        let Images { q, lattice, .. } = self.images;
        TripletsInput::new(0, &self.tables, &self.class_map, q, lattice)
    }

    fn chain(&self) -> ChainInput {
        ChainInput {
            a: self.a,
            rotations: self.rotations.clone(),
            way: Way::AsItStands,
            time_reversal: false,
            swappable: true,
            lattice: self.images.lattice,
            ps: [0; 3],
            bz_grid_type: self.images.bz_grid_type,
            q0: 0,
            image: 0,
        }
    }
}

/// Times a call.
type Run = fn(&Job) -> f64;

/// What a call of a grid has rows for: each list, or the longest; each type, or the first.
#[derive(Clone, Copy)]
enum Rows {
    One,
    Lists,
    Types,
    Both,
}

use Rows::{Both, Lists, One, Types};

impl Rows {
    fn of_lists(self) -> bool {
        matches!(self, Lists | Both)
    }

    fn of_types(self) -> bool {
        matches!(self, Types | Both)
    }

    /// What a row begins with: the call, with its type, and the rotations.
    fn head(self, name: &str, job: &Job) -> [String; 2] {
        let bz_grid_type = match self.of_types() {
            true => format!(":type_{}", job.images.bz_grid_type),
            false => String::new(),
        };
        let rotations = match self.of_lists() {
            true => job.rotations.len().to_string(),
            false => String::new(),
        };
        [format!("`{name}{bz_grid_type}`"), rotations]
    }
}

/// The calls that are given a grid, and their nanoseconds a point.
static OF_GRIDS: &[(&str, Rows, Run)] = &[
    ("all_grid_addresses", One, |job| {
        let d = job.images.d.to_vec();
        job.whole::<AllGridAddresses>(GridInput { d })
    }),
    ("grid_index_from_address", One, |job| {
        job.single::<GridIndexFromAddress>(|random, _| {
            FoldInput::new([(); 3].map(|()| random.within(100)), job.images.d)
        })
    }),
    ("rotate_grid_index", One, |job| {
        job.single::<RotateGridIndex>(|random, point| {
            PointInput::new(point, random.pick(&job.operations), job.images.d, [0; 3])
        })
    }),
    ("mark_candidates", One, |job| {
        job.single::<MarkCandidates>(|random, point| MarksInput {
            d: job.images.d.to_vec(),
            q: job.images.q.as_flattened().to_vec(),
            point,
            ..MarksInput::typical(random)
        })
    }),
    ("ir_grid_map", Lists, |job| {
        let rotations = flat(&job.operations);
        job.whole::<IrGridMap>(MapInput::new(&rotations, job.images.d, [0; 3]))
    }),
    ("class_weights", Lists, |job| {
        job.whole::<ClassWeights>(WeightsInput::new(&job.operations, job.images.d, [0; 3], 0))
    }),
    ("bz_grid_addresses", Types, |job| {
        job.whole::<BzGridAddresses>(ImagesInput::of(&job.images))
    }),
    ("bz_grid_sizes", Types, |job| {
        job.whole::<BzGridSizes>(SizesInput(ImagesInput::of(&job.images)))
    }),
    ("bz_grid_fill", Types, |job| {
        job.whole::<BzGridFill>(FillInput::own(ImagesInput::of(&job.images)))
    }),
    ("convert_bz_grid", Types, |job| {
        job.whole::<ConvertBzGrid>(ConvertInput::made(&job.images).expect("accepted"))
    }),
    ("rotate_bz_grid_index", Types, |job| {
        job.single::<RotateBzGridIndex>(|random, index| job.rotated(random, index))
    }),
    ("rotate_bz_grid_indices", Types, |job| {
        let single = job.rotated(&mut Random::new(1), 0);
        job.whole::<RotateBzGridIndices>(BurstInput::new(&job.indices(), single))
    }),
    ("neighboring_grid_points", Types, |job| {
        let input = NeighboursInput::new(&job.indices(), &OFFSETS, &job.tables);
        job.whole::<NeighboringGridPoints>(input)
    }),
    ("ir_triplets_at_q", Lists, |job| {
        let input = ClassesInput::new(0, job.images.d, &job.operations, [false, true]);
        job.whole::<IrTripletsAtQ>(input)
    }),
    ("bz_triplets_at_q", Both, |job| {
        job.whole::<BzTripletsAtQ>(job.triplets())
    }),
    ("class_sheet", Lists, |job| {
        job.whole::<ClassSheet>(of_triplets(&job.triplets()).expect("accepted"))
    }),
    ("chain", Both, |job| job.whole::<WholeJob>(job.chain())),
];

/// The calls that are given a list alone, and their nanoseconds a rotation.
static OF_LISTS: &[(&str, Run)] = &[
    ("reciprocal_rotations", |job| {
        job.listed::<ReciprocalRotations>(ListInput {
            rotations: flat(&job.rotations),
            flags: [false],
        })
    }),
    ("reciprocal_group", |job| {
        job.listed::<ReciprocalGroup>(GroupInput {
            rotations: flat(&job.rotations),
            time_reversal: false,
        })
    }),
    ("reciprocal_point_group", |job| {
        job.listed::<ReciprocalPointGroup>(ListInput {
            rotations: flat(&job.rotations),
            flags: [false; 2],
        })
    }),
    ("transform_rotations", |job| {
        let Images { d, q, .. } = job.images;
        job.listed::<TransformRotations>(TransformInput::new(&job.rotations, d, q))
    }),
];

/// Hands over the lines of both tables, each as soon as it is timed.
pub fn tables(print: impl Fn(String)) {
    let (grids, lists) = (grids(), lists());
    let jobs = TYPES.map(|bz_grid_type| {
        let of_list = |list: &Vec<MatI>| {
            let job = |&a| Job::new(a, list, bz_grid_type);
            grids.iter().map(job).collect()
        };
        lists.iter().map(of_list).collect::<Vec<Vec<Job>>>()
    });
    let sparse = &jobs[0];
    print("Nanoseconds a point, by the points of the grid:\n".into());
    let points: Vec<usize> = sparse[0].iter().map(Job::points).collect();
    head(&["call", "rotations"], &points)
        .into_iter()
        .for_each(&print);
    for &(name, rows, run) in OF_GRIDS {
        let types = if rows.of_types() { 2 } else { 1 };
        let first = if rows.of_lists() { 0 } else { lists.len() - 1 };
        for row in jobs[..types].iter().flat_map(|of_type| &of_type[first..]) {
            let times = row.iter().map(run);
            print(line(&rows.head(name, &row[0]), times));
        }
    }
    print("\nNanoseconds a rotation, by the rotations of the list:\n".into());
    let rotations: Vec<usize> = lists.iter().map(Vec::len).collect();
    head(&["call"], &rotations).into_iter().for_each(&print);
    for (name, run) in OF_LISTS {
        let times = sparse.iter().map(|row| run(&row[0]));
        print(line(&[format!("`{name}`")], times));
    }
}

/// The two lines above a table.
fn head(names: &[&str], sizes: &[usize]) -> [String; 2] {
    let sizes: Vec<String> = sizes.iter().map(usize::to_string).collect();
    let names = format!("| {} | {} |", names.join(" | "), sizes.join(" | "));
    let below = "|---".repeat(names.matches('|').count() - 1) + "|";
    [names, below]
}

fn line(names: &[String], times: impl Iterator<Item = f64>) -> String {
    let times: Vec<String> = times.map(|time| format!("{time:.1}")).collect();
    format!("| {} | {} |", names.join(" | "), times.join(" | "))
}

#[cfg(test)]
mod tests {
    use super::*;
    use phonors::common::det_i;

    #[test]
    fn sizes() {
        let points: Vec<i64> = grids().iter().map(|a| det_i(a).abs()).collect();
        assert_eq!(points, [1_000, 4_096, 13_824, 32_768, 65_536]);
        let rotations: Vec<usize> = lists().iter().map(Vec::len).collect();
        assert_eq!(rotations, [1, 8, 24, 48]);
    }

    /// Both sides accept what the port is timed on, with the same answer.
    #[test]
    fn every_line_runs() {
        for list in [&lists()[0], &lists()[3]] {
            for bz_grid_type in TYPES {
                let job = Job::new(grids()[0], list, bz_grid_type);
                for (name, _, run) in OF_GRIDS {
                    assert!(run(&job) > 0.0, "{name}");
                }
                for (name, run) in OF_LISTS {
                    assert!(run(&job) > 0.0, "{name}");
                }
            }
        }
    }
}
