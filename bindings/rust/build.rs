//! Finds libfullerecru.a and links it statically. It is looked for in this order:
//!
//! 1. the folder that FULLERECRU_LIB_DIR names: what is asked for is taken, or the build fails;
//! 2. target/staticlib of the repository that this package lies in, so that inside the repository
//!    the binding is tested with the library of the same sources, whatever is installed;
//! 3. the installed library, where pkg-config knows it and it has the package's version.

use std::env;
use std::path::{Path, PathBuf};
use std::process::{exit, Command};

const ARCHIVE: &str = "libfullerecru.a";
const FOLDER_VARIABLE: &str = "FULLERECRU_LIB_DIR";

fn main() {
    for name in [
        FOLDER_VARIABLE,
        "PKG_CONFIG",
        "PKG_CONFIG_PATH",
        "PKG_CONFIG_LIBDIR",
    ] {
        println!("cargo:rerun-if-env-changed={name}");
    }
    println!("cargo:rerun-if-changed=build.rs");
    let found = match env::var_os(FOLDER_VARIABLE) {
        Some(folder) => with_archive(PathBuf::from(folder)),
        None => {
            beside().or_else(|first| installed().map_err(|second| format!("  {first}\n  {second}")))
        }
    };
    match found {
        Ok(folder) => link(&folder),
        Err(why) => fail(&why),
    }
}

/// The folder, where the archive is in it; else a line that says where it is not.
fn with_archive(folder: PathBuf) -> Result<PathBuf, String> {
    let archive = folder.join(ARCHIVE);
    if archive.is_file() {
        Ok(folder)
    } else {
        Err(format!("{} is not there", archive.display()))
    }
}

/// target/staticlib of the repository, where `make lib` writes the archive.
fn beside() -> Result<PathBuf, String> {
    let package = env::var_os("CARGO_MANIFEST_DIR").expect("set by cargo");
    with_archive(Path::new(&package).join("../../target/staticlib"))
}

/// The folder of the installed library, which must have the version of this package: the numbers
/// of another one may differ.
fn installed() -> Result<PathBuf, String> {
    let wanted = env!("CARGO_PKG_VERSION");
    let version = pkg_config("--modversion")?;
    if version != wanted {
        return Err(format!(
            "the installed fullerecru has version {version}, not {wanted}"
        ));
    }
    with_archive(PathBuf::from(pkg_config("--variable=libdir")?))
}

/// What pkg-config answers to a question about fullerecru, without the line's end.
fn pkg_config(question: &str) -> Result<String, String> {
    let program = env::var_os("PKG_CONFIG").unwrap_or_else(|| "pkg-config".into());
    let output = Command::new(&program)
        .args([question, "fullerecru"])
        .output()
        .map_err(|error| format!("{}: {error}", program.to_string_lossy()))?;
    if output.status.success() {
        Ok(String::from_utf8_lossy(&output.stdout).trim().to_string())
    } else {
        Err("pkg-config knows no installed fullerecru".to_string())
    }
}

fn link(folder: &Path) {
    println!("cargo:rerun-if-changed={}", folder.join(ARCHIVE).display());
    println!("cargo:rustc-link-search=native={}", folder.display());
    println!("cargo:rustc-link-lib=static=fullerecru");
}

fn fail(why: &str) -> ! {
    eprintln!(
        "{ARCHIVE} was not found:\n{why}\n\
         Run `make lib` in the repository of Fullerecru, or `make install` there, \
         or name the folder that has {ARCHIVE} in the environment variable {FOLDER_VARIABLE}."
    );
    exit(1)
}
