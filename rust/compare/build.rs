//! Links the Rust, which the build of cyrs-sheet has compiled.

fn main() {
    let libraries = std::env::var("DEP_CYRS_LIBRARIES").expect("cyrs-sheet's build tells it");
    println!("cargo::rustc-link-search=all={libraries}");
}
