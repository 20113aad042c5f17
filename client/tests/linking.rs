//! Which library the build script takes.

#[allow(dead_code)]
#[path = "../build.rs"]
mod build;

use build::{library, Library};
use std::fs;
use std::path::{Path, PathBuf};

/// A folder with a package in a repository, and one beside it; all go at the end.
struct Folders(PathBuf);

impl Folders {
    fn new(name: &str) -> Folders {
        let folder = format!("algebra-linking-{name}-{}", std::process::id());
        let folders = Folders(std::env::temp_dir().join(folder));
        for part in ["client", "target/staticlib", "named", "installed"] {
            fs::create_dir_all(folders.0.join(part)).expect("a folder can be made");
        }
        folders
    }

    /// Puts an archive into a folder.
    fn archive(&self, part: &str) {
        fs::write(self.0.join(part).join("libalgebra.a"), []).expect("a file can be written");
    }

    /// What is taken where a folder is named or not, and a library is installed or not.
    fn taken(&self, named: Option<&str>, installed: bool) -> Result<Library, String> {
        let (package, folder) = (self.0.join("client"), self.0.join("installed"));
        let installed = || if installed { Ok(folder) } else { Err("none is installed".into()) };
        library(&package, named.map(|part| self.0.join(part).into()), installed)
    }
}

impl Drop for Folders {
    fn drop(&mut self) {
        let _ = fs::remove_dir_all(&self.0);
    }
}

/// The last part of the folder of an archive that was taken.
fn part(taken: Result<Library, String>) -> Option<String> {
    let Ok(Library::Archive(folder)) = taken else { return None };
    Path::new(&folder).file_name().map(|name| name.to_string_lossy().into_owned())
}

#[test]
fn the_folder_that_is_named_comes_first_then_the_built_then_the_installed() {
    let folders = Folders::new("order");
    folders.archive("installed");
    assert_eq!(part(folders.taken(None, true)).as_deref(), Some("installed"));
    folders.archive("target/staticlib");
    assert_eq!(part(folders.taken(None, true)).as_deref(), Some("staticlib"));
    folders.archive("named");
    assert_eq!(part(folders.taken(Some("named"), true)).as_deref(), Some("named"));
}

#[test]
fn an_installed_library_without_an_archive_is_linked_as_shared() {
    let folders = Folders::new("shared");
    let folder = folders.0.join("installed");
    assert_eq!(folders.taken(None, true), Ok(Library::Shared(folder)));
}

#[test]
fn what_is_lacking_is_told() {
    let folders = Folders::new("lacking");
    folders.archive("installed");
    let what = folders.taken(Some("named"), true).expect_err("no archive is there");
    assert!(what.contains("the folder that ALGEBRA_LIB_DIR names"), "{what}");
    let what = folders.taken(None, false).expect_err("no archive is there");
    for part in ["ALGEBRA_LIB_DIR", "make library", "none is installed", "PKG_CONFIG_PATH"] {
        assert!(what.contains(part), "{what}");
    }
}
