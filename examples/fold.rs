//! fold [TYPE Q0]: what fold.c does, in Rust, with the same output, by the crate rust/zone.
use std::{env, process};
use zone::{Refusal, GROUP_LENGTH, RECORD_LENGTH};

const A: [i64; 9] = [-2, 2, 2, 2, -2, 2, 2, 2, -2];
const LATTICE: [f64; 9] = [-1., 1., 1., 1., -1., 1., 1., 1., -1.];
const SHIFT: [i64; 3] = [0, 0, 0];
const TIME_REVERSAL: bool = true;
const SWAPPABLE: bool = true;

fn direct_rotations() -> Vec<i64> {
    let axes = [
        [0, 1, 2],
        [0, 2, 1],
        [1, 0, 2],
        [1, 2, 0],
        [2, 0, 1],
        [2, 1, 0],
    ];
    let twice_c = [[0, 1, 1], [1, 0, 1], [1, 1, 0]];
    let inverse_c = [[-1, 1, 1], [1, -1, 1], [1, 1, -1]];
    let entry = |n: usize, i: usize, j: usize| -> i64 {
        let sign = |k: usize| if n >> k & 1 == 1 { -1 } else { 1 };
        (0..3)
            .map(|k| inverse_c[i][k] * sign(k) * twice_c[axes[n / 8][k]][j])
            .sum::<i64>()
            / 2
    };
    (0..48 * 9)
        .map(|at| entry(at / 9, at / 3 % 3, at % 3))
        .collect()
}

fn print_line(word: &str, numbers: &[i64]) {
    println!(
        "{word}{}",
        numbers.iter().map(|n| format!(" {n}")).collect::<String>()
    );
}

fn q_of(a: &[i64], d: &[i64], q: &[i64]) -> [f64; 3] {
    let step = |k: usize| a[k] as f64 + SHIFT[k] as f64 / 2.;
    let coordinate =
        |i: usize| (0..3).fold(0., |x, k| x + q[3 * i + k] as f64 * step(k) / d[k] as f64);
    [coordinate(0), coordinate(1), coordinate(2)]
}

/// The calls in their order.
fn fold(grid_type: i64, q0: i64) -> Result<(), Refusal> {
    let (mut d, mut p, mut q) = ([0; 3], [0; 9], [0; 9]);
    zone::snf3x3(&A, &mut d, &mut p, &mut q, &mut [0])?;
    let n = d.iter().product::<i64>() as usize;

    let (mut reciprocal, mut count) = ([0; GROUP_LENGTH], [0]);
    zone::reciprocal_group(
        &direct_rotations(),
        TIME_REVERSAL,
        &mut reciprocal,
        &mut count,
    )?;
    let reciprocal = &reciprocal[..9 * count[0] as usize];
    let mut rotations = vec![0; reciprocal.len()];
    zone::transform_rotations(reciprocal, &d, &q, &mut rotations)?;

    let mut sizes = [0; 3];
    zone::bz_grid_sizes(&d, &q, &SHIFT, &LATTICE, grid_type, &mut sizes)?;
    let [mut addresses, mut map, mut grg] = sizes.map(|length| vec![0; length as usize]);
    let mut told = [0; 3 + RECORD_LENGTH]; // the lengths again, and the record that goes with the table
    zone::bz_grid_fill(
        &d,
        &q,
        &SHIFT,
        &LATTICE,
        grid_type,
        &sizes,
        &mut addresses,
        &mut map,
        &mut grg,
        &mut told,
    )?;
    let record = &told[3..];

    let (mut class_map, mut map_q, mut classes) = (vec![0; n], vec![0; n], [0]);
    zone::ir_triplets_at_q(
        q0,
        &d,
        &rotations,
        TIME_REVERSAL,
        SWAPPABLE,
        &mut class_map,
        &mut map_q,
        &mut classes,
    )?;

    let k = classes[0] as usize;
    let (mut triplets, mut left, mut left_length, mut cells) =
        (vec![0; 3 * k], vec![0; k], vec![0.; k], vec![0; 3 * k]);
    let start = if grid_type == 1 { q0 } else { map[q0 as usize] };
    zone::bz_triplets_at_q(
        start,
        &addresses,
        &map,
        record,
        &class_map,
        &d,
        &q,
        &LATTICE,
        grid_type,
        &mut triplets,
        &mut left,
        &mut left_length,
        &mut cells,
    )?;

    print_line("grid", &d);
    print_line("map", &class_map);
    print_line("ir", &classes);
    let lowest = (0..n as i64).filter(|i| class_map[*i as usize] == *i);
    let told = left_length.iter().zip(cells.chunks(3));
    for ((i, triplet), (length, cell)) in lowest.zip(triplets.chunks(3)).zip(told) {
        let weight = class_map.iter().filter(|j| **j == i).count();
        print_line("triplet", triplet);
        print!("  weight {weight}:");
        let mut sum = [0.; 3];
        for image in triplet {
            let x = q_of(&addresses[3 * *image as usize..], &d, &q);
            print!(" ({:.3} {:.3} {:.3})", x[0], x[1], x[2]);
            sum = [sum[0] + x[0], sum[1] + x[1], sum[2] + x[2]];
        }
        print!(
            ", sum {:.3} {:.3} {:.3}, squared length {length:.3}",
            sum[0], sum[1], sum[2]
        );
        print_line(", cell", cell);
    }
    Ok(())
}

fn main() {
    let given: Vec<i64> = env::args().skip(1).filter_map(|x| x.parse().ok()).collect();
    let (grid_type, q0) = if given.len() == 2 {
        (given[0], given[1])
    } else {
        (2, 2)
    };
    if let Err(refusal) = fold(grid_type, q0) {
        eprintln!("{refusal}");
        process::exit(1);
    }
}
