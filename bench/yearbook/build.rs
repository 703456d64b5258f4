//! Links libyearbook.a, which `scripts/library yearbook` builds.

fn main() {
    let folder = concat!(env!("CARGO_MANIFEST_DIR"), "/../../target/lib");
    println!("cargo:rustc-link-search=native={folder}");
    println!("cargo:rustc-link-lib=static=yearbook");
    println!("cargo:rerun-if-changed={folder}/libyearbook.a");
}
