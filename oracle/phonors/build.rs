//! Lists the modules of phonors for src/lib.rs, each by its path in the folder
//! PHONORS_SRC (by default ../shared/docs/src/src, seen from the repository), and
//! writes the edited versions of them.

use std::path::{Path, PathBuf};
use std::{env, fs, process};

const MODULES: [&str; 7] = [
    "common",
    "grgrid",
    "snf3x3",
    "recip_rotations",
    "transform_rotations",
    "bzgrid",
    "triplet_grid",
];

const DEFAULT_SOURCES: &str = "../../../shared/docs/src/src";

/// A module's text but for a few edits, so that it tells more than its answer.
struct Version {
    name: &'static str,
    module: &'static str,
    /// What stands in the module, and what takes its place.
    edits: &'static [[&'static str; 2]],
}

const VERSIONS: [Version; 8] = [
    Version {
        name: "grgrid_opened",
        module: "grgrid",
        edits: &[["fn rotate_grid_index(", "pub fn rotate_grid_index("]],
    },
    Version {
        name: "grgrid_halved",
        module: "grgrid",
        edits: &[
            [
                "fn double_grid_index(address_double: Vec3I, d_diag: Vec3I, ps: Vec3I)",
                "fn double_grid_index(address_double: Vec3I, d_diag: Vec3I, ps: Vec3I, halved: &mut Vec3I)",
            ],
            [
                "    ];\n    grid_index_from_address(address, d_diag)",
                "    ];\n    *halved = address;\n    grid_index_from_address(address, d_diag)",
            ],
            [
                "fn rotate_grid_index(grid_index: i64, rotation: MatI, d_diag: Vec3I, ps: Vec3I)",
                "pub fn rotate_grid_index(grid_index: i64, rotation: MatI, d_diag: Vec3I, ps: Vec3I, halved: &mut Vec3I)",
            ],
            [
                "double_grid_index(dadrs_rot, d_diag, ps)",
                "double_grid_index(dadrs_rot, d_diag, ps, halved)",
            ],
            [
                "rotate_grid_index(gp, *rot, d_diag, ps)",
                "rotate_grid_index(gp, *rot, d_diag, ps, &mut [0; 3])",
            ],
        ],
    },
    Version {
        name: "snf3x3_counted",
        module: "snf3x3",
        edits: &[
            [
                "pub fn snf3x3(a: MatI)",
                "pub fn snf3x3(a: MatI, rounds: &mut i64)",
            ],
            [
                "for _ in 0..100 {",
                "for _ in 0..100 {\n        *rounds += 1;",
            ],
            [
                "fn extended_gcd(a: i64, b: i64)",
                "pub fn extended_gcd(a: i64, b: i64, divisions: &mut i64)",
            ],
            [
                "extended_gcd(a[0][0], a[j][0])",
                "extended_gcd(a[0][0], a[j][0], &mut 0)",
            ],
            [
                "extended_gcd(a[1][1], a[2][1])",
                "extended_gcd(a[1][1], a[2][1], &mut 0)",
            ],
            [
                "let q = r[0].div_euclid(r[1]);",
                "*divisions += 1;\n        let q = r[0].div_euclid(r[1]);",
            ],
        ],
    },
    Version {
        name: "snf3x3_opened",
        module: "snf3x3",
        edits: &[["fn extended_gcd(", "pub fn extended_gcd("]],
    },
    Version {
        name: "snf3x3_measured",
        module: "snf3x3",
        edits: &[[
            "use crate::common::{det_i, matmul_i, ",
            "use crate::measured::{det_i, matmul_i};\nuse crate::common::{",
        ]],
    },
    Version {
        name: "bzgrid_watched",
        module: "bzgrid",
        edits: &[
            [
                "use rayon::prelude::*;",
                "use rayon::prelude::*;\n\nuse crate::watched::{self, Watched};",
            ],
            [
                "let (lo, hi) = self.search_range(s0);",
                "let (lo, hi) = self.search_range(s0);\n        watched::range(lo, hi);",
            ],
            [
                "self.for_each_image(gr_index, |_| count += 1);",
                "self.for_each_image(gr_index, |_| count += 1);\n        watched::images(count);",
            ],
            [
                "bz_grid_addresses: &[Vec3I],",
                "bz_grid_addresses: Watched<'_, Vec3I>,",
            ],
            ["bz_map: &[i64],", "bz_map: Watched<'_, i64>,"],
            ["addresses: &'a [Vec3I],", "addresses: Watched<'a, Vec3I>,"],
            ["gp_map: &'a [i64],", "gp_map: Watched<'a, i64>,"],
            [
                "bz_grid_type: i64,\n) -> Result<i64, RotateBzGridError> {",
                "bz_grid_type: i64,\n    fallback: &mut bool,\n) -> Result<i64, RotateBzGridError> {",
            ],
            [
                "// Ill-defined bzgrid fallback.",
                "// Ill-defined bzgrid fallback.\n        *fallback = true;",
            ],
            [
                "        }\n        Ok(bz_map[gp as usize])",
                "        }\n        *fallback = true;\n        Ok(bz_map[gp as usize])",
            ],
        ],
    },
    Version {
        name: "triplet_grid_watched",
        module: "triplet_grid",
        edits: &[
            [
                "use crate::bzgrid;",
                "use crate::bzgrid;\nuse crate::watched::{Walked, Watched};",
            ],
            [
                "fn bz_triplets_at_q_type1(\n    triplets: &mut [[i64; 3]],\n    grid_point: i64,\n    bz_grid_addresses: &[Vec3I],\n    bz_map: &[i64],",
                "fn bz_triplets_at_q_type1(\n    walked: &mut Walked,\n    triplets: &mut [[i64; 3]],\n    grid_point: i64,\n    bz_grid_addresses: Watched<'_, Vec3I>,\n    bz_map: Watched<'_, i64>,",
            ],
            [
                "fn bz_triplets_at_q_type2(\n    triplets: &mut [[i64; 3]],\n    grid_point: i64,\n    bz_grid_addresses: &[Vec3I],\n    bz_map: &[i64],",
                "fn bz_triplets_at_q_type2(\n    walked: &mut Walked,\n    triplets: &mut [[i64; 3]],\n    grid_point: i64,\n    bz_grid_addresses: Watched<'_, Vec3I>,\n    bz_map: Watched<'_, i64>,",
            ],
            [
                "pub fn bz_triplets_at_q(\n    grid_point: i64,\n    bz_grid_addresses: &[Vec3I],\n    bz_map: &[i64],",
                "pub fn bz_triplets_at_q(\n    walked: &mut Walked,\n    grid_point: i64,\n    bz_grid_addresses: Watched<'_, Vec3I>,\n    bz_map: Watched<'_, i64>,",
            ],
            [
                "bz_triplets_at_q_type1(\n            &mut triplets,",
                "bz_triplets_at_q_type1(\n            walked,\n            &mut triplets,",
            ],
            [
                "bz_triplets_at_q_type2(\n            &mut triplets,",
                "bz_triplets_at_q_type2(\n            walked,\n            &mut triplets,",
            ],
            [
                "bz_map[num_bzgp + gp2_idx] + 1;\n\n        let mut min_d2: f64 = -1.0;",
                "bz_map[num_bzgp + gp2_idx] + 1;\n\n        if walked.empty([n0, n1, n2]) {\n            continue;\n        }\n        let mut min_d2: f64 = -1.0;",
            ],
            [
                "let r2 = bz_map[gp2_idx]..bz_map[gp2_idx + 1];\n",
                "let r2 = bz_map[gp2_idx]..bz_map[gp2_idx + 1];\n        if walked.empty([&r0, &r1, &r2].map(|r| r.end - r.start)) {\n            continue;\n        }\n",
            ],
            [
                "            }\n        }\n    }\n}\n\n/// Dense-layout (type 2)",
                "            }\n        }\n        let [x, y, z] = triplets[i].map(|image| bz_grid_addresses[image as usize]);\n        walked.leave(add3(x, y, z), min_d2);\n    }\n}\n\n/// Dense-layout (type 2)",
            ],
            [
                "            }\n        }\n    }\n}\n\n/// Find symmetry-reduced BZ triplets",
                "            }\n        }\n        let [x, y, z] = triplets[i].map(|image| bz_grid_addresses[image as usize]);\n        walked.leave(add3(x, y, z), min_d2);\n    }\n}\n\n/// Find symmetry-reduced BZ triplets",
            ],
        ],
    },
    Version {
        name: "bzgrid_reordered",
        module: "bzgrid",
        edits: &[[
            "vc[0] * vc[0] + vc[1] * vc[1] + vc[2] * vc[2]",
            "vc[0] * vc[0] + (vc[1] * vc[1] + vc[2] * vc[2])",
        ]],
    },
];

fn main() {
    println!("cargo:rerun-if-changed=build.rs");
    println!("cargo:rerun-if-env-changed=PHONORS_SRC");
    let folder = env::var_os("PHONORS_SRC").unwrap_or(DEFAULT_SOURCES.into());
    let folder = fs::canonicalize(&folder).unwrap_or_else(|_| missing(Path::new(&folder)));
    let out_dir = PathBuf::from(env::var_os("OUT_DIR").expect("cargo sets OUT_DIR"));
    let mut list = String::new();
    for name in MODULES {
        let file = source(&folder, name);
        println!("cargo:rerun-if-changed={}", file.display());
        list += &item(name, &file);
    }
    for version in VERSIONS {
        let file = out_dir.join(version.name).with_extension("rs");
        write(&file, &version.text(&source(&folder, version.module)));
        list += &item(version.name, &file);
    }
    write(&out_dir.join("modules.rs"), &list);
}

/// The file of a module.
fn source(folder: &Path, name: &str) -> PathBuf {
    let file = folder.join(name).with_extension("rs");
    if !file.is_file() {
        missing(&file);
    }
    file
}

/// The item that makes a file a module of the crate. Warnings about its code are
/// not ours to mend.
fn item(name: &str, file: &Path) -> String {
    format!("#[allow(warnings, clippy::all)]\n#[path = {file:?}]\npub mod {name};\n")
}

impl Version {
    /// An edit whose place is not there once ends the build: it would make
    /// another program.
    fn text(&self, file: &Path) -> String {
        let mut text = fs::read_to_string(file).unwrap_or_else(|_| missing(file));
        for [old, new] in self.edits {
            let found = text.matches(old).count();
            if found != 1 {
                fail(&format!(
                    "{} has {found} times {old:?}, not once",
                    file.display()
                ));
            }
            text = text.replace(old, new);
        }
        text
    }
}

fn write(file: &Path, text: &str) {
    fs::write(file, text).expect("OUT_DIR takes files");
}

fn missing(path: &Path) -> ! {
    fail(&format!(
        "{} is missing (PHONORS_SRC names the folder of phonors)",
        path.display()
    ))
}

/// Ends the build with one line.
fn fail(line: &str) -> ! {
    println!("cargo::error={line}");
    process::exit(0);
}
