//! The functions that the commands know.

use crate::bench::{self, Timed, Times};
use crate::bz_grid_addresses::*;
use crate::bz_grid_fill::*;
use crate::bz_grid_sizes::*;
use crate::bz_triplets_at_q::*;
use crate::chain::*;
use crate::class_sheet::*;
use crate::class_weights::*;
use crate::convert_bz_grid::*;
use crate::extended_gcd::*;
use crate::floats::*;
use crate::function::{Function, Input};
use crate::grgrid::*;
use crate::grid_index_from_address::*;
use crate::hermite3x3::*;
use crate::inputs::chains::ChainInput;
use crate::inputs::lent_bursts::BurstInput;
use crate::inputs::lent_classes::ClassesInput;
use crate::inputs::lent_conversions::ConvertInput;
use crate::inputs::lent_images::ImagesInput;
use crate::inputs::lent_marks::MarksInput;
use crate::inputs::lent_neighbours::NeighboursInput;
use crate::inputs::lent_rotations::RotateInput;
use crate::inputs::lent_sheets::SheetInput;
use crate::inputs::lent_sizes::{FillInput, SizesInput};
use crate::inputs::lent_triplets::TripletsInput;
use crate::integers::*;
use crate::ir_triplets_at_q::*;
use crate::mark_candidates::*;
use crate::neighboring_grid_points::*;
use crate::order_forms::*;
use crate::recip_rotations::*;
use crate::reciprocal_group::*;
use crate::rotate_bz_grid_index::*;
use crate::rotate_bz_grid_indices::*;
use crate::rotate_grid_index::*;
use crate::same_grid::*;
use crate::smith3x3::*;
use crate::snf3x3::*;
use crate::transform_rotations::*;
use crate::whole_job::*;
use crate::worst_pair::*;
use crate::zone_list::*;
use crate::{compare, vectors, zone_list};

/// What the commands do with one function.
pub struct Row {
    /// Most are an export's without its prefix. The script `setup` reads the names off
    /// this file.
    pub name: &'static str,
    /// Runs random cases from a seed and counts the differences.
    pub compare: fn(cases: u64, seed: u64) -> u64,
    /// The function's lines of the vectors, from a seed, if it has any.
    pub vectors: Option<fn(seed: u64) -> Vec<String>>,
    pub bench: Option<Bench>,
}

/// A line of the bench, and the part of its table that it stands in.
#[derive(Clone, Copy)]
pub struct Bench {
    pub part: Part,
    pub run: fn() -> Times,
}

#[derive(Clone, Copy, Debug, PartialEq)]
pub enum Part {
    /// The eleven calls that document 01 names. They have a mean.
    Call,
    /// Checked operations, floats and the extended gcd. They have a mean of their own.
    Helper,
    /// A call that the Rust lacks, or one on other inputs. These have none.
    Apart,
}

impl Row {
    const fn call<F: Timed>(name: &'static str) -> Row {
        Row::timed::<F>(name, Part::Call)
    }

    const fn helper<F: Timed>(name: &'static str) -> Row {
        Row::timed::<F>(name, Part::Helper)
    }

    const fn apart<F: Timed>(name: &'static str) -> Row {
        Row::timed::<F>(name, Part::Apart)
    }

    const fn timed<F: Timed>(name: &'static str, part: Part) -> Row {
        let run = bench::run::<F>;
        Row {
            bench: Some(Bench { part, run }),
            ..Row::replayed::<F>(name)
        }
    }

    /// A call that the Rust lacks, and that is not timed.
    const fn replayed<F: Function>(name: &'static str) -> Row {
        Row {
            vectors: Some(vectors::lines::<F>),
            ..Row::compared::<F>(name)
        }
    }

    /// Of several calls, each of which has its own vectors and its bench.
    const fn compared<F: Function>(name: &'static str) -> Row {
        Row {
            name,
            compare: compare::run::<F>,
            vectors: None,
            bench: None,
        }
    }
}

pub static ROWS: &[Row] = &[
    Row::helper::<CheckedAdd>("checked_add"),
    Row::helper::<CheckedSub>("checked_sub"),
    Row::helper::<CheckedMul>("checked_mul"),
    Row::helper::<CheckedDivEuclid>("checked_div_euclid"),
    Row::helper::<CheckedRemEuclid>("checked_rem_euclid"),
    Row::helper::<CheckedDiv>("checked_div"),
    Row::helper::<CheckedRem>("checked_rem"),
    Row::helper::<CheckedNeg>("checked_neg"),
    Row::helper::<Round>("round"),
    Row::helper::<Floor>("floor"),
    Row::helper::<Ceil>("ceil"),
    Row::helper::<Abs>("abs"),
    Row::helper::<Sqrt>("sqrt"),
    Row::helper::<ToI64>("to_i64"),
    Row::helper::<Nint>("nint"),
    Row::helper::<IsFinite>("is_finite"),
    Row::helper::<ToF64>("to_f64"),
    Row::helper::<ExtendedGcd>("extended_gcd"),
    Row::call::<ReciprocalPointGroup>("reciprocal_point_group"),
    Row::call::<ReciprocalRotations>("reciprocal_rotations"),
    Row::apart::<ReciprocalGroup>("reciprocal_group"),
    Row::call::<IrGridMap>("ir_grid_map"),
    Row::call::<AllGridAddresses>("all_grid_addresses"),
    Row::apart::<GridIndexFromAddress>("grid_index_from_address"),
    Row::apart::<RotateGridIndex>("rotate_grid_index"),
    Row::apart::<ClassWeights>("class_weights"),
    Row::call::<Snf3x3>("snf3x3"),
    Row::apart::<Smith3x3>("smith3x3"),
    Row::apart::<Hermite3x3>("hermite3x3"),
    Row::apart::<OrderForms>("order_forms"),
    Row::apart::<SameGrid>("same_grid"),
    Row::replayed::<WorstPair>("worst_pair"),
    Row::call::<TransformRotations>("transform_rotations"),
    Row::call::<BzGridAddresses>("bz_grid_addresses"),
    Row::apart::<BzGridSizes>("bz_grid_sizes"),
    Row::apart::<BzGridFill>("bz_grid_fill"),
    Row::apart::<MarkCandidates>("mark_candidates"),
    Row::call::<RotateBzGridIndex>("rotate_bz_grid_index"),
    Row::apart::<RotateBzGridIndices>("rotate_bz_grid_indices"),
    Row::call::<NeighboringGridPoints>("neighboring_grid_points"),
    Row::apart::<ConvertBzGrid>("convert_bz_grid"),
    Row::call::<IrTripletsAtQ>("ir_triplets_at_q"),
    Row::call::<BzTripletsAtQ>("bz_triplets_at_q"),
    Row::apart::<ClassSheet>("class_sheet"),
    Row {
        bench: Some(Bench {
            part: Part::Apart,
            run: bench::run::<WholeJob>,
        }),
        ..Row::compared::<Chain>("chain")
    },
    Row {
        vectors: Some(zone_list::vectors),
        ..Row::compared::<ZoneList>("zone_list")
    },
];

/// A line of the bench for a function on other inputs: FUNCTION:INPUTS.
pub type Variant = (&'static str, fn() -> Times);

pub static VARIANTS: &[Variant] = &[
    ("snf3x3:to_10", || {
        bench::run_on::<Snf3x3>(MatrixInput::small)
    }),
    ("smith3x3:to_10", || {
        bench::run_on::<Smith3x3>(SmithInput::small)
    }),
    ("smith3x3:over_snf3x3", || {
        bench::beside::<Smith3x3>(SmithInput::typical, over_snf3x3)
    }),
    ("smith3x3:over_snf3x3_to_10", || {
        bench::beside::<Smith3x3>(SmithInput::small, over_snf3x3)
    }),
    ("hermite3x3:to_10", || {
        bench::run_on::<Hermite3x3>(HermiteInput::small)
    }),
    ("bz_grid_addresses:type_1", || {
        bench::run_on::<BzGridAddresses>(ImagesInput::sparse)
    }),
    ("bz_grid_addresses:type_2", || {
        bench::run_on::<BzGridAddresses>(ImagesInput::dense)
    }),
    ("bz_grid_sizes:over_addresses", || {
        bench::beside::<BzGridSizes>(SizesInput::typical, sizes_over_addresses)
    }),
    ("bz_grid_fill:over_addresses", || {
        bench::beside::<BzGridFill>(FillInput::typical, fill_over_addresses)
    }),
    ("mark_candidates:open", || {
        bench::run_on::<MarkCandidates>(MarksInput::open)
    }),
    ("rotate_bz_grid_index:type_1", || {
        bench::run_on::<RotateBzGridIndex>(RotateInput::sparse)
    }),
    ("rotate_bz_grid_index:type_2", || {
        bench::run_on::<RotateBzGridIndex>(RotateInput::dense)
    }),
    ("rotate_bz_grid_indices:type_1", || {
        bench::run_on::<RotateBzGridIndices>(BurstInput::sparse)
    }),
    ("rotate_bz_grid_indices:type_2", || {
        bench::run_on::<RotateBzGridIndices>(BurstInput::dense)
    }),
    ("rotate_bz_grid_indices:over_singles", || {
        bench::beside::<RotateBzGridIndices>(BurstInput::typical, burst_over_singles)
    }),
    ("neighboring_grid_points:type_1", || {
        bench::run_on::<NeighboringGridPoints>(NeighboursInput::sparse)
    }),
    ("neighboring_grid_points:type_2", || {
        bench::run_on::<NeighboringGridPoints>(NeighboursInput::dense)
    }),
    ("convert_bz_grid:type_1", || {
        bench::run_on::<ConvertBzGrid>(ConvertInput::sparse)
    }),
    ("convert_bz_grid:type_2", || {
        bench::run_on::<ConvertBzGrid>(ConvertInput::dense)
    }),
    ("convert_bz_grid:over_addresses", || {
        bench::beside::<ConvertBzGrid>(ConvertInput::typical, convert_over_addresses)
    }),
    ("ir_triplets_at_q:swapped", || {
        bench::run_on::<IrTripletsAtQ>(ClassesInput::swapped)
    }),
    ("ir_triplets_at_q:unswapped", || {
        bench::run_on::<IrTripletsAtQ>(ClassesInput::unswapped)
    }),
    ("bz_triplets_at_q:type_1", || {
        bench::run_on::<BzTripletsAtQ>(TripletsInput::sparse)
    }),
    ("bz_triplets_at_q:type_2", || {
        bench::run_on::<BzTripletsAtQ>(TripletsInput::dense)
    }),
    ("class_sheet:65536", || {
        bench::run_on::<ClassSheet>(SheetInput::full)
    }),
    ("chain:type_1", || {
        bench::run_on::<WholeJob>(ChainInput::sparse)
    }),
    ("chain:type_2", || {
        bench::run_on::<WholeJob>(ChainInput::dense)
    }),
];

/// Every line of the bench.
pub fn benches() -> Vec<(&'static str, Bench)> {
    let rows = ROWS.iter().filter_map(|row| Some((row.name, row.bench?)));
    let part = Part::Apart;
    let variants = VARIANTS
        .iter()
        .map(|&(name, run)| (name, Bench { part, run }));
    rows.chain(variants).collect()
}

#[cfg(test)]
mod tests {
    use super::*;

    #[test]
    fn the_calls_of_the_paper() {
        let call = |row: &&Row| row.bench.is_some_and(|bench| bench.part == Part::Call);
        assert_eq!(ROWS.iter().filter(call).count(), 11);
    }

    /// Both sides accept what they are timed on, with the same answer.
    #[test]
    fn every_bench_runs() {
        for (name, bench) in benches() {
            let Times { port, rust } = (bench.run)();
            assert!(port > 0.0 && rust > 0.0, "{name}");
        }
    }
}
