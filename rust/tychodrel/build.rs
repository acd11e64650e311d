//! Finds the archive: in TYCHODREL_LIB_DIR, else where `tools/staticlib` puts it in this repository.

use std::env;
use std::path::{Path, PathBuf};

fn main() {
    let package = env::var_os("CARGO_MANIFEST_DIR").map_or_else(PathBuf::new, PathBuf::from);
    let repository = package.ancestors().nth(2).unwrap_or(Path::new("/"));
    let folder = env::var_os("TYCHODREL_LIB_DIR")
        .map_or_else(|| repository.join("target/staticlib"), PathBuf::from);
    let archive = folder.join("libtychodrel.a");
    println!("cargo::rerun-if-env-changed=TYCHODREL_LIB_DIR");
    println!("cargo::rerun-if-changed={}", archive.display());
    if archive.is_file() {
        println!("cargo::rustc-link-search=native={}", folder.display());
        println!("cargo::rustc-link-lib=static=tychodrel");
    } else {
        println!("cargo::error={} is missing", archive.display());
        println!(
            "cargo::error=run tools/staticlib in {}, or set TYCHODREL_LIB_DIR",
            repository.display()
        );
    }
}
