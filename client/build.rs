//! Links the library `algebra`: the archive of a folder that is named, the one that the repository
//! has built, or a library that is installed.

use std::env;
use std::ffi::OsString;
use std::path::{Path, PathBuf};
use std::process::{exit, Command};

/// The variable that names the folder of the archive.
const FOLDER_VARIABLE: &str = "ALGEBRA_LIB_DIR";
/// The folder in which the repository builds the archive, seen from this package.
const BUILT_FOLDER: &str = "../target/staticlib";
/// The archive.
const ARCHIVE: &str = "libalgebra.a";
/// The variable that names the program pkg-config, and its usual name.
const PROGRAM_VARIABLE: &str = "PKG_CONFIG";
const PROGRAM: &str = "pkg-config";
/// The variables by which that program finds what is installed.
const SEARCH_VARIABLES: [&str; 2] = ["PKG_CONFIG_PATH", "PKG_CONFIG_LIBDIR"];
/// What is asked of an installed library.
const INSTALLED: &str = "algebra";
const LEAST_VERSION: &str = "1.0";

/// What is linked.
#[derive(Debug, PartialEq, Eq)]
pub enum Library {
    /// The archive in a folder.
    Archive(PathBuf),
    /// A shared library, in a folder that holds no archive.
    Shared(PathBuf),
}

fn main() {
    let package = PathBuf::from(env::var_os("CARGO_MANIFEST_DIR").expect("set by cargo"));
    for variable in [FOLDER_VARIABLE, PROGRAM_VARIABLE].iter().chain(&SEARCH_VARIABLES) {
        println!("cargo:rerun-if-env-changed={variable}");
    }
    let named = env::var_os(FOLDER_VARIABLE).filter(|folder| !folder.is_empty());
    match library(&package, named, installed) {
        Ok(library) => link(&library),
        Err(what) => {
            eprintln!("{what}");
            exit(1);
        }
    }
}

/// The library that is taken: that of the folder that is named, or else the one that was built, or
/// else the one that is installed; or what to do if there is none.
pub fn library(
    package: &Path,
    named: Option<OsString>,
    installed: impl FnOnce() -> Result<PathBuf, String>,
) -> Result<Library, String> {
    if let Some(named) = named {
        let folder = package.join(&named);
        return match folder.join(ARCHIVE).is_file() {
            true => Ok(Library::Archive(folder)),
            false => Err(format!(
                "there is no {ARCHIVE} in {}, the folder that {FOLDER_VARIABLE} names",
                folder.display()
            )),
        };
    }
    let built = package.join(BUILT_FOLDER);
    if built.join(ARCHIVE).is_file() {
        return Ok(Library::Archive(built));
    }
    let folder = installed().map_err(|why| nowhere(&built, &why))?;
    Ok(match folder.join(ARCHIVE).is_file() {
        true => Library::Archive(folder),
        false => Library::Shared(folder),
    })
}

/// What is said where there is no library.
fn nowhere(built: &Path, why: &str) -> String {
    format!(
        "the library algebra was not found:\n\
         - the variable {FOLDER_VARIABLE} is not set: it may name the folder of {ARCHIVE};\n\
         - {} has no {ARCHIVE}: `make library` in the repository builds it;\n\
         - {why}: `make install` puts the library and its algebra.pc in place, and PKG_CONFIG_PATH \
         may name the folder of that file",
        built.display()
    )
}

/// The folder of the installed library, or why there is none.
fn installed() -> Result<PathBuf, String> {
    let program = env::var_os(PROGRAM_VARIABLE).unwrap_or_else(|| PROGRAM.into());
    let asked = format!("{INSTALLED} >= {LEAST_VERSION}");
    let answer = Command::new(&program).args(["--variable=libdir", &asked]).output();
    let answer = answer.map_err(|error| format!("{} does not run ({error})", program.display()))?;
    let folder = String::from_utf8_lossy(&answer.stdout).trim().to_string();
    match answer.status.success() && !folder.is_empty() {
        true => Ok(folder.into()),
        false => Err(format!("{} knows no {asked}", program.display())),
    }
}

/// Tells cargo what is linked.
fn link(library: &Library) {
    let (folder, sort) = match library {
        Library::Archive(folder) => (folder, "static"),
        Library::Shared(folder) => (folder, "dylib"),
    };
    println!("cargo:rerun-if-changed={}", folder.join(ARCHIVE).display());
    println!("cargo:rustc-link-search=native={}", folder.display());
    println!("cargo:rustc-link-lib={sort}=algebra");
}
