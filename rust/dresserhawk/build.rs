//! Has the archive of the proved calls made, and links it.
//!
//! tools/archive.sh proves whatever is not proved yet and writes
//! target/staticlib/libdresserhawk.a. The variable DRESSERHAWK_ARCHIVE names an
//! archive that is there already; then nothing is proved and no `rt` is needed.
//! Beside the archive libdresserhawk.kit has the identity of the kit that proved
//! it. A kit other than that of kit.txt is told as a warning.

use std::env;
use std::fs;
use std::path::{Path, PathBuf};
use std::process::{Command, exit};

fn main() {
    println!("cargo::rerun-if-env-changed=DRESSERHAWK_ARCHIVE");
    let here = variable("CARGO_MANIFEST_DIR");
    let root = here.ancestors().nth(2).expect("the crate lies in rust/dresserhawk");
    let made = match env::var_os("DRESSERHAWK_ARCHIVE") {
        Some(archive) => given(PathBuf::from(archive)),
        None => prove(root),
    };
    let out = variable("OUT_DIR");
    if let Err(error) = fs::copy(&made, out.join("libdresserhawk.a")) {
        fail(&format!("{}: {error} (DRESSERHAWK_ARCHIVE is a full path)", made.display()));
    }
    println!("cargo::rustc-link-search=native={}", out.display());
    println!("cargo::rustc-link-lib=static=dresserhawk");
    println!("cargo::rustc-env=DRESSERHAWK_LINKED={}", out.join("libdresserhawk.a").display());
    println!("cargo::rustc-env=DRESSERHAWK_KIT={}", kit(root, &made));
}

fn variable(name: &str) -> PathBuf {
    PathBuf::from(env::var_os(name).unwrap_or_else(|| panic!("cargo sets {name}")))
}

/// Ends the build with a line for whoever asked for it.
fn fail(what: &str) -> ! {
    println!("cargo::error={what}");
    exit(1)
}

fn given(archive: PathBuf) -> PathBuf {
    println!("cargo::rerun-if-changed={}", archive.display());
    archive
}

/// Runs tools/archive.sh.
fn prove(root: &Path) -> PathBuf {
    for read in ["crates", "crates.txt", "tools/archive.sh"] {
        println!("cargo::rerun-if-changed={}", root.join(read).display());
    }
    match Command::new(root.join("tools/archive.sh")).status() {
        Ok(status) if status.success() => root.join("target/staticlib/libdresserhawk.a"),
        _ => fail(
            "tools/archive.sh made no archive and says why below; DRESSERHAWK_ARCHIVE names a ready one",
        ),
    }
}

/// The kit that proved the archive; a warning if the repository has another.
fn kit(root: &Path, archive: &Path) -> String {
    let kept = root.join("kit.txt");
    println!("cargo::rerun-if-changed={}", kept.display());
    let read = |path: &Path| fs::read_to_string(path).ok().map(|kit| kit.trim().to_string());
    let last = read(&kept).unwrap_or_else(|| panic!("{} can be read", kept.display()));
    let Some(kit) = read(&archive.with_extension("kit")) else {
        println!("cargo::warning=which kit proved {} is not known", archive.display());
        return "unknown".to_string();
    };
    if kit != last {
        println!("cargo::warning=proved with {kit}; the repository was last proved with {last}");
    }
    kit
}
