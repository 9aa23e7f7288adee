//! Links the archive of the exports for the comparison alone: the file that
//! NUMBERS_C_ARCHIVE names, by default the one that `tools/archive` writes. Only the
//! exports are global symbols there, so the library code that it shares with the
//! archive of the crate `zone` does not collide.

use std::env;
use std::path::Path;

fn main() {
    println!("cargo:rerun-if-changed=build.rs");
    println!("cargo:rerun-if-env-changed=NUMBERS_C_ARCHIVE");
    let default = "../../target/staticlib/libnumbers_c.a".to_string();
    let archive = env::var("NUMBERS_C_ARCHIVE").unwrap_or(default);
    println!("cargo:rerun-if-changed={archive}");
    let Ok(archive) = Path::new(&archive).canonicalize() else {
        println!("cargo::error={archive} is missing (tools/archive numbers_c writes it)");
        return;
    };
    // By its path, so that an archive of any name is taken; behind the objects
    // that call it, as the linker wants it.
    println!("cargo:rustc-link-arg={}", archive.display());
}
