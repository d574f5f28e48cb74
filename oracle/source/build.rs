//! The tests of this package read the files of tests/files where the reference reads its sources.
fn main() {
    println!("cargo:rerun-if-changed=build.rs");
    println!("cargo:rustc-env=ORACLE_REF={}/tests/files", std::env::var("CARGO_MANIFEST_DIR").unwrap());
}
