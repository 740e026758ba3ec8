//! Compiles the C reference with gcc -O3, and the limits, which use SSE4.1.

use std::path::PathBuf;
use std::process::{self, Command};

fn main() {
    archive("reference", &[]);
    // Sums stay as they are written: turned about they need more registers than there are.
    archive(
        "limits",
        &["-msse4.1", "-fno-tree-reassoc", "-fno-tree-ter"],
    );
}

/// Links NAME.c, compiled with these options too.
fn archive(name: &str, options: &[&str]) {
    let source = format!("{name}.c");
    println!("cargo:rerun-if-changed={source}");
    let out = PathBuf::from(std::env::var("OUT_DIR").unwrap());
    let object = out.join(format!("{name}.o"));
    let archive = out.join(format!("lib{name}.a"));
    run(Command::new("gcc")
        .arg("-O3")
        .args(options)
        .args(["-c", &source, "-o"])
        .arg(&object));
    run(Command::new("ar").arg("rcs").arg(archive).arg(object));
    println!("cargo:rustc-link-search=native={}", out.display());
    println!("cargo:rustc-link-lib=static={name}");
}

fn run(command: &mut Command) {
    if !command.status().is_ok_and(|status| status.success()) {
        eprintln!("the C kernels need gcc and ar; this failed: {command:?}");
        process::exit(1);
    }
}
