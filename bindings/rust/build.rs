//! Links `libeon_c.a`, which `rt lib` writes in `crates/eon_c`. `EON_LIB` names it where it lies elsewhere.

use std::env;
use std::path::{Path, PathBuf};

fn main() {
    println!("cargo::rerun-if-env-changed=EON_LIB");
    let archive = env::var_os("EON_LIB").map_or_else(default_archive, PathBuf::from);
    println!("cargo::rerun-if-changed={}", archive.display());
    if !archive.is_file() {
        println!(
            "cargo::error=no archive {}: run `rt lib` in crates/eon_c, or name it in EON_LIB",
            archive.display()
        );
        return;
    }
    let folder = archive.parent().unwrap_or(Path::new("."));
    println!("cargo::rustc-link-search=native={}", folder.display());
    println!("cargo::rustc-link-lib=static=eon_c");
}

fn default_archive() -> PathBuf {
    let own = env::var_os("CARGO_MANIFEST_DIR").unwrap_or_default();
    Path::new(&own).join("../../crates/eon_c/out/libeon_c.a")
}
