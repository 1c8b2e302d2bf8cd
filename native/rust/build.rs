//! Tells the linker where the proved library is: in the folder that `GMP_LIB` names, else in `native/lib`.
use std::env;
use std::path::PathBuf;

fn main() {
    println!("cargo:rerun-if-env-changed=GMP_LIB");
    if env::var_os("CARGO_FEATURE_MOCK").is_some() {
        return;
    }
    let here = PathBuf::from(env::var_os("CARGO_MANIFEST_DIR").expect("cargo tells the folder"));
    let folder = env::var_os("GMP_LIB").map_or_else(|| here.join("../lib"), PathBuf::from);
    let library = folder.join("libgmp_c.a");
    println!("cargo:rerun-if-changed={}", library.display());
    assert!(
        library.is_file(),
        "there is no {}: `./gmp lib DIR` builds it, GMP_LIB names its folder by a path from /, and the feature mock does without it",
        library.display()
    );
    println!("cargo:rustc-link-search=native={}", folder.display());
    println!("cargo:rustc-link-lib=static=gmp_c");
}
