//! Links the proved archive: the file that ZONE_C_ARCHIVE names, by default the one that `tools/archive zone_c` writes.

use std::env;
use std::path::Path;

fn main() {
    println!("cargo:rerun-if-env-changed=ZONE_C_ARCHIVE");
    let default = "../../target/staticlib/libzone_c.a".to_string();
    let archive = env::var("ZONE_C_ARCHIVE").unwrap_or(default);
    println!("cargo:rerun-if-changed={archive}");
    let Ok(archive) = Path::new(&archive).canonicalize() else {
        println!("cargo::error={archive} is missing (tools/archive zone_c writes it, ZONE_C_ARCHIVE may name another)");
        return;
    };
    let folder = archive.parent().expect("a folder");
    let file = archive.strip_prefix(folder).expect("a file in it");
    println!("cargo:rustc-link-search=native={}", folder.display());
    // An archive of any name.
    println!("cargo:rustc-link-lib=static:+verbatim={}", file.display());
}
