//! Writing results: hexadecimal text, and files that are written whole or not at all.

use crate::Failure;
use std::ffi::{OsStr, OsString};
use std::fmt::Write as _;
use std::fs::{self, File, Metadata, OpenOptions};
use std::io::{self, Write};
use std::path::{Path, PathBuf};

/// A line of hexadecimal text has so many bytes.
const LINE_BYTES: usize = 32;

/// Bytes as two digits each.
pub fn digits(bytes: &[u8]) -> String {
    let mut text = String::with_capacity(2 * bytes.len());
    for byte in bytes {
        write!(text, "{byte:02X}").expect("writing to a string does not fail");
    }
    text
}

/// Bytes as lines of digits.
pub fn hexadecimal_lines(bytes: &[u8]) -> String {
    let mut text = String::with_capacity(2 * bytes.len() + bytes.len() / LINE_BYTES + 1);
    for line in bytes.chunks(LINE_BYTES) {
        text.push_str(&digits(line));
        text.push('\n');
    }
    text
}

/// Writes a file whole or not at all. What is there and is no file, such as a device, is written
/// to as it is.
pub fn write_file(name: &OsStr, bytes: &[u8]) -> Result<(), Failure> {
    let path = Path::new(name);
    let written = match fs::metadata(path) {
        Ok(there) if there.is_dir() => Err(io::Error::from(io::ErrorKind::IsADirectory)),
        Ok(there) if !there.is_file() => write_through(path, bytes),
        Ok(there) => fs::canonicalize(path).and_then(|path| replace(&path, bytes, Some(&there))),
        Err(_) => replace(path, bytes, None),
    };
    written.map_err(|error| Failure::of(path.display(), error))
}

/// Writes to something that is no file.
fn write_through(path: &Path, bytes: &[u8]) -> io::Result<()> {
    let mut file = OpenOptions::new().write(true).open(path)?;
    file.write_all(bytes)?;
    file.flush()
}

/// Writes a file beside the path, and puts it in its place when it is whole.
fn replace(path: &Path, bytes: &[u8], old: Option<&Metadata>) -> io::Result<()> {
    let (mut file, temporary) = create_beside(path)?;
    let written = fill(&mut file, bytes, old).and_then(|()| fs::rename(&temporary, path));
    if written.is_err() {
        // The first error is the one to be told.
        let _ = fs::remove_file(&temporary);
    }
    written
}

/// Writes the bytes, down to the disk, with the permissions of the file that is replaced.
fn fill(file: &mut File, bytes: &[u8], old: Option<&Metadata>) -> io::Result<()> {
    file.write_all(bytes)?;
    if let Some(old) = old {
        file.set_permissions(old.permissions())?;
    }
    file.sync_all()
}

/// Creates a new file in the folder of a path.
fn create_beside(path: &Path) -> io::Result<(File, PathBuf)> {
    let name = path.file_name().ok_or(io::ErrorKind::InvalidInput)?;
    let mut attempt = 0;
    loop {
        let mut temporary = OsString::from(".");
        temporary.push(name);
        temporary.push(format!(".{}.{attempt}.part", std::process::id()));
        let temporary = path.with_file_name(temporary);
        match OpenOptions::new().write(true).create_new(true).open(&temporary) {
            Err(error) if error.kind() == io::ErrorKind::AlreadyExists => attempt += 1,
            opened => return opened.map(|file| (file, temporary)),
        }
    }
}

#[cfg(test)]
mod tests {
    use super::*;

    /// A new empty folder for a test.
    fn folder(name: &str) -> PathBuf {
        let path = std::env::temp_dir().join(format!("algebra-{name}-{}", std::process::id()));
        fs::create_dir(&path).expect("a folder can be made");
        path
    }

    /// The names in a folder.
    fn names(folder: &Path) -> Vec<OsString> {
        let entries = fs::read_dir(folder).expect("the folder can be read");
        entries.map(|entry| entry.expect("an entry").file_name()).collect()
    }

    #[test]
    fn lines_have_32_bytes() {
        assert_eq!(hexadecimal_lines(&[]), "");
        assert_eq!(hexadecimal_lines(&[10; 33]), format!("{}\n0A\n", "0A".repeat(32)));
    }

    #[test]
    fn a_file_is_made_and_replaced() {
        let folder = folder("replaced");
        let path = folder.join("result");
        for bytes in [&b"one"[..], b"", b"three"] {
            assert_eq!(write_file(path.as_os_str(), bytes), Ok(()));
            assert_eq!(fs::read(&path).expect("the file is there"), bytes);
        }
        assert_eq!(names(&folder), ["result"]);
        fs::remove_dir_all(folder).expect("the folder can be removed");
    }

    #[test]
    fn a_link_stays_a_link() {
        let folder = folder("link");
        let (path, link) = (folder.join("file"), folder.join("link"));
        fs::write(&path, b"old").expect("a file can be written");
        std::os::unix::fs::symlink(&path, &link).expect("a link can be made");
        assert_eq!(write_file(link.as_os_str(), b"new"), Ok(()));
        assert!(fs::symlink_metadata(&link).expect("the link is there").is_symlink());
        assert_eq!(fs::read(&path).expect("the file is there"), b"new");
        fs::remove_dir_all(folder).expect("the folder can be removed");
    }

    #[test]
    fn a_folder_is_no_place_for_a_result() {
        let folder = folder("place");
        assert!(write_file(folder.as_os_str(), b"bytes").is_err());
        assert!(write_file(folder.join("absent/result").as_os_str(), b"bytes").is_err());
        assert!(names(&folder).is_empty());
        fs::remove_dir_all(folder).expect("the folder can be removed");
    }
}
