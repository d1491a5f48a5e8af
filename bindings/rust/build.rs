//! Links libstrandomir.a: from the folder that STRANDOMIR_LIB_DIR names, or else from the repository's target/staticlib.
use std::env;
use std::path::PathBuf;

fn main() {
    println!("cargo:rerun-if-env-changed=STRANDOMIR_LIB_DIR");
    let folder = match env::var_os("STRANDOMIR_LIB_DIR") {
        Some(folder) => PathBuf::from(folder),
        None => PathBuf::from(env::var_os("CARGO_MANIFEST_DIR").unwrap()).join("../../target/staticlib"),
    };
    let archive = folder.join("libstrandomir.a");
    if !archive.is_file() {
        panic!("{} is not there: run tools/build archive, or set STRANDOMIR_LIB_DIR", archive.display());
    }
    println!("cargo:rerun-if-changed={}", archive.display());
    println!("cargo:rustc-link-search=native={}", folder.display());
    println!("cargo:rustc-link-lib=static=strandomir");
}
