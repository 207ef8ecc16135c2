//! Has cyrs compiled from the copy beside the repository, unchanged, and links
//! it. The variable CYRS_SRC names the folder of that copy that holds `crates`.
//! Where the compiled crates lie is told to packages that depend on this one.

use std::env;
use std::path::{Path, PathBuf};
use std::process::Command;

fn main() {
    let here = PathBuf::from(env::var_os("CARGO_MANIFEST_DIR").expect("cargo sets it"));
    let root: &Path = here.ancestors().nth(2).expect("the crate lies in rust/cyrs-sheet");
    let oracle = root.join("oracle");
    println!("cargo::rerun-if-env-changed=CYRS_SRC");
    println!("cargo::rerun-if-env-changed=ORACLE_FLAGS");
    println!("cargo::rerun-if-changed={}", oracle.join("build.sh").display());
    println!("cargo::rerun-if-changed={}", oracle.join("stubs").display());
    let out = PathBuf::from(env::var_os("OUT_DIR").expect("cargo sets it")).join("original");
    let status = Command::new(oracle.join("build.sh"))
        .arg(&out)
        .status()
        .expect("oracle/build.sh can be run");
    if !status.success() {
        println!("cargo::error=oracle/build.sh did not compile cyrs and says why below");
        std::process::exit(1);
    }
    let libraries = out.join("lib");
    println!("cargo::rustc-link-search=all={}", libraries.display());
    println!("cargo::metadata=libraries={}", libraries.display());
}
