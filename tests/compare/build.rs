//! Links the proved static libraries from the folder that FULLERECRU_LIB_DIR names,
//! else from `target/staticlib` of the project.

use std::env;
use std::path::PathBuf;

/// The library itself, and the arithmetic that only tests call.
const LIBRARIES: [&str; 2] = ["fullerecru", "arith_c"];

fn main() {
    let package = PathBuf::from(env::var_os("CARGO_MANIFEST_DIR").expect("set by cargo"));
    let folder = match env::var_os("FULLERECRU_LIB_DIR") {
        Some(folder) => PathBuf::from(folder),
        None => package.join("../../target/staticlib"),
    };
    println!("cargo:rerun-if-env-changed=FULLERECRU_LIB_DIR");
    println!("cargo:rustc-link-search=native={}", folder.display());
    for name in LIBRARIES {
        let archive = folder.join(format!("lib{name}.a"));
        assert!(
            archive.exists(),
            "{}: make it by tools/archive {name}",
            archive.display()
        );
        println!("cargo:rerun-if-changed={}", archive.display());
        println!("cargo:rustc-link-lib=static={name}");
    }
}
