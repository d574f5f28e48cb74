//! Hands ORACLE_REF on to the compiler, and builds again when it names another folder.
fn main() {
    println!("cargo:rerun-if-env-changed=ORACLE_REF");
    let folder = std::env::var("ORACLE_REF").expect("ORACLE_REF names the folder of the reference that holds engine/ and mix/");
    println!("cargo:rustc-env=ORACLE_REF={folder}");
}
