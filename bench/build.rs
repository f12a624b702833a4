//! Links the static library of the proved codec, which `rt lib` writes in crates/calls_c.
fn main() {
    let root = std::env::var("CARGO_MANIFEST_DIR").expect("cargo sets it");
    println!("cargo:rustc-link-search=native={root}/../crates/calls_c/out");
    println!("cargo:rustc-link-lib=static=calls_c");
    println!("cargo:rerun-if-changed={root}/../crates/calls_c/out/libcalls_c.a");
}
