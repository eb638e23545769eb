//! Says where the archive of the proved library lies, which the tests link: `rt lib` in crates/depthgrid writes it.
fn main() {
    let root = std::env::var("CARGO_MANIFEST_DIR").unwrap();
    println!("cargo:rustc-link-search=native={root}/../crates/depthgrid/out");
    println!("cargo:rerun-if-changed=../crates/depthgrid/out/libdepthgrid.a");
}
