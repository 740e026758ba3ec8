//! Links the archive of the ward's calls, crates/ward/out/libward.a of the
//! repository, or the one in the folder WARD_LIB_DIR.

use std::env;
use std::path::PathBuf;

fn main() {
    println!("cargo::rerun-if-env-changed=WARD_LIB_DIR");
    let here = PathBuf::from(env::var("CARGO_MANIFEST_DIR").unwrap());
    let folder = match env::var_os("WARD_LIB_DIR") {
        Some(given) => PathBuf::from(given),
        // hosts/ward is two below the repository's root.
        None => here.join("../../crates/ward/out"),
    };
    let archive = folder.join("libward.a");
    println!("cargo::rerun-if-changed={}", archive.display());
    if !archive.is_file() {
        println!("cargo::error=libward.a is missing: run `tools/archive ward` first");
    }
    println!("cargo::rustc-link-search=native={}", folder.display());
    println!("cargo::rustc-link-lib=static=ward");
}
