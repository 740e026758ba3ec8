//! Links the archives of the proved operations, libhost.a and libhost_values.a,
//! each from its crate's out/, or both from the folder HOST_LIB_DIR.

use std::env;
use std::path::PathBuf;

fn main() {
    println!("cargo:rerun-if-env-changed=HOST_LIB_DIR");
    let here = PathBuf::from(env::var("CARGO_MANIFEST_DIR").unwrap());
    for name in ["host", "host_values"] {
        let folder = match env::var_os("HOST_LIB_DIR") {
            Some(given) => PathBuf::from(given),
            // oracle/crates/host is three below the repository's root.
            None => here.join(format!("../../../crates/{name}/out")),
        };
        println!("cargo:rustc-link-search=native={}", folder.display());
        let archive = folder.join(format!("lib{name}.a"));
        println!("cargo:rerun-if-changed={}", archive.display());
        println!("cargo:rustc-link-lib=static={name}");
    }
}
