//! Links libmixer.a from the folder that ORACLE_LIB names.
fn main() {
    println!("cargo:rerun-if-env-changed=ORACLE_LIB");
    let folder = std::env::var("ORACLE_LIB").expect("ORACLE_LIB names the folder of libmixer.a");
    println!("cargo:rerun-if-changed={folder}/libmixer.a");
    println!("cargo:rustc-link-search=native={folder}");
    println!("cargo:rustc-link-lib=static=mixer");
}
