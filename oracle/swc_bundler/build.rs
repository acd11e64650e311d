//! Lays the crate out in OUT_DIR: the published files byte for byte, and stand-ins for modules that are not built.
//!
//! A published file may be followed by a probe (`probes/`), which reaches what is private to the file. Nothing is put
//! before or inside the file's text.

use std::{
    env, fs, io,
    path::{Path, PathBuf},
};

/// Published files, and the probe that follows them.
const PUBLISHED: [(&str, Option<&str>); 8] = [
    ("id.rs", Some("id.rs")),
    ("load.rs", None),
    ("util.rs", None),
    ("bundler/mod.rs", Some("mod.rs")),
    ("bundler/export.rs", None),
    ("bundler/import/mod.rs", None),
    ("bundler/load.rs", Some("load.rs")),
    ("bundler/scope.rs", Some("scope.rs")),
];

/// Modules that the published ones name, with what stands for them.
const STAND_INS: [(&str, &str); 7] = [
    ("bundler/chunk.rs", "chunk.rs"),
    ("bundler/finalize.rs", "empty.rs"),
    ("bundler/helpers.rs", "helpers.rs"),
    ("bundler/import/tests.rs", "empty.rs"),
    ("bundler/keywords.rs", "empty.rs"),
    ("bundler/optimize.rs", "empty.rs"),
    ("bundler/tests.rs", "empty.rs"),
];

/// Modules of the crate's root.
const ROOT: [(&str, &str); 4] = [
    ("bundler", "bundler/mod.rs"),
    ("id", "id.rs"),
    ("load", "load.rs"),
    ("util", "util.rs"),
];

/// Where a probe begins.
const BOUNDARY: &str = "\n// End of the published file. What follows is a probe of the oracle.\n";

fn main() -> io::Result<()> {
    let here = folder("CARGO_MANIFEST_DIR");
    let out = folder("OUT_DIR").join("src");
    let source = source(&here);
    println!("cargo::rerun-if-env-changed=SWC_BUNDLER_SRC");
    println!("cargo::rerun-if-changed={}", source.display());
    println!("cargo::rerun-if-changed={}", here.display());

    let names = PUBLISHED.iter().map(|(name, _)| *name);
    let missing: Vec<&str> = names
        .filter(|name| published(&source, name).is_none())
        .collect();
    if !missing.is_empty() {
        report(&source, &missing);
        return Ok(());
    }
    lay_out_published(&source, &here.join("probes"), &out)?;
    lay_out_stand_ins(&here.join("standins"), &out)?;
    let modules = ROOT.map(|(name, file)| format!("#[path = {:?}]\nmod {name};\n", out.join(file)));
    write(&out.join("root.rs"), modules.concat().as_bytes())
}

fn folder(variable: &str) -> PathBuf {
    env::var_os(variable).expect("cargo sets it").into()
}

/// The folder of the published files. A relative one is seen from the repository's root.
fn source(here: &Path) -> PathBuf {
    let root = here
        .ancestors()
        .nth(2)
        .expect("oracle/swc_bundler is in the repository");
    match env::var_os("SWC_BUNDLER_SRC") {
        Some(folder) => root.join(folder),
        None => root.join("../shared/docs/src"),
    }
}

/// The file under its own path, under that with `.txt` behind, or under a flattened one.
fn published(source: &Path, name: &str) -> Option<PathBuf> {
    let names = [
        format!("src/{name}"),
        format!("src/{name}.txt"),
        format!("src--src--{}.txt", name.replace('/', "--")),
    ];
    names
        .map(|name| source.join(name))
        .into_iter()
        .find(|path| path.is_file())
}

/// Ends the build with what is to be done.
fn report(source: &Path, missing: &[&str]) {
    let lines = [
        format!(
            "The published files of the crate swc_bundler 58.0.0 are not in {}.",
            source.display()
        ),
        format!("Missing there: src/{}.", missing.join(", src/")),
        "Set SWC_BUNDLER_SRC to the folder of the crate's sources, the one that holds src/."
            .to_string(),
        "Each file may also be named as src/id.rs.txt or src--src--id.rs.txt.".to_string(),
    ];
    for line in lines {
        println!("cargo::error={line}");
    }
}

fn lay_out_published(source: &Path, probes: &Path, out: &Path) -> io::Result<()> {
    for (name, probe) in PUBLISHED {
        let mut text = fs::read(published(source, name).expect("no file is missing"))?;
        if let Some(probe) = probe {
            text.extend_from_slice(BOUNDARY.as_bytes());
            text.extend(fs::read(probes.join(probe))?);
        }
        write(&out.join(name), &text)?;
    }
    Ok(())
}

fn lay_out_stand_ins(stand_ins: &Path, out: &Path) -> io::Result<()> {
    for (name, stand_in) in STAND_INS {
        write(&out.join(name), &fs::read(stand_ins.join(stand_in))?)?;
    }
    Ok(())
}

fn write(path: &Path, text: &[u8]) -> io::Result<()> {
    if let Some(folder) = path.parent() {
        fs::create_dir_all(folder)?;
    }
    fs::write(path, text)
}
