//! Links the archive that `rt lib` writes in crates/uprzezar.

fn main() {
    let here = std::env::var("CARGO_MANIFEST_DIR").expect("cargo sets it");
    println!("cargo:rustc-link-search=native={here}/../crates/uprzezar/out");
    println!("cargo:rustc-link-lib=static=uprzezar");
    println!("cargo:rerun-if-changed={here}/../crates/uprzezar/out/libuprzezar.a");
}
