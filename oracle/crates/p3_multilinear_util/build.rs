//! Finds the published files and writes the `mod` lines that name them.

use std::path::PathBuf;
use std::{env, fs, process};

const FILES: [&str; 7] = [
    "eq_batch.rs",
    "point.rs",
    "poly/mod.rs",
    "poly/maybe_packed.rs",
    "split_eq/mod.rs",
    "split_eq/eq.rs",
    "split_eq/packed_kernel.rs",
];

const MODULES: [(&str, &str); 4] = [
    ("eq_batch", "eq_batch.rs"),
    ("point", "point.rs"),
    ("poly", "poly/mod.rs"),
    ("split_eq", "split_eq/mod.rs"),
];

fn main() {
    println!("cargo:rerun-if-env-changed=P3_SOURCES");
    let here = PathBuf::from(env::var("CARGO_MANIFEST_DIR").unwrap());
    let sources = match env::var_os("P3_SOURCES") {
        Some(given) => PathBuf::from(given),
        // oracle/crates/p3_multilinear_util is three below the repository's root.
        None => here.join("../../../../shared/docs/src/src"),
    };
    for file in FILES {
        let path = sources.join(file);
        if !path.is_file() {
            eprintln!("the Rust file {} is missing", path.display());
            eprintln!("expected in ../shared/docs/src/src beside the repository, or in P3_SOURCES");
            process::exit(1);
        }
        println!("cargo:rerun-if-changed={}", path.display());
    }
    let sources = sources.canonicalize().unwrap();
    let lines: String = MODULES
        .iter()
        .map(|(name, file)| {
            let path = sources.join(file);
            format!("#[path = {path:?}]\npub mod {name};\n")
        })
        .collect();
    let out = PathBuf::from(env::var("OUT_DIR").unwrap());
    fs::write(out.join("modules.rs"), lines).unwrap();
}
