//! Links the static library of the crate bench, which `rt lib` in its folder has made.

fn main() {
    let libraries = concat!(env!("CARGO_MANIFEST_DIR"), "/../crates/bench/out");
    println!("cargo::rustc-link-search=native={libraries}");
    println!("cargo::rustc-link-lib=static=bench");
    println!("cargo::rerun-if-changed={libraries}/libbench.a");
}
