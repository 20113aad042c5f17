//! Files with one length off by one: the explanation names the field whose length it is.

use reference::explain::{self, Fault};
use std::path::{Path, PathBuf};

/// Of a hundred files so many must name the guilty field.
const ASKED: usize = 92;

/// The files of all folders of examples with an ending.
fn files(ending: &str) -> Vec<PathBuf> {
    let root = Path::new(env!("CARGO_MANIFEST_DIR")).join("../examples");
    let entries = |folder: &Path| -> Vec<PathBuf> {
        let entries = std::fs::read_dir(folder).expect("a folder of examples");
        entries.map(|entry| entry.expect("an entry").path()).collect()
    };
    let folders = entries(&root).into_iter().filter(|path| path.is_dir());
    let all = folders.flat_map(|folder| entries(&folder));
    all.filter(|path| path.extension().is_some_and(|found| found == ending)).collect()
}

/// Where the fields of a file start, those inside of others too.
fn fields(file: &[u8], start: usize, end: usize, list: &mut Vec<usize>) {
    let mut at = start;
    while at + 3 <= end {
        list.push(at);
        let inside = at + 3;
        let next = inside + usize::from(u16::from_be_bytes([file[at + 1], file[at + 2]]));
        if matches!(file[at], 0x20 | 0x21 | 0x30 | 0x31) {
            fields(file, inside, next, list);
        }
        at = next;
    }
}

/// The fault of a file of a sort.
fn fault(ending: &str, file: &[u8]) -> Option<Fault> {
    match ending {
        "language" => explain::language(file),
        "translation" => explain::translation(file),
        _ => explain::reduce(file, 65_536, 4096),
    }
}

/// Counts the files that are refused with one length of a file off by one, and those of them in
/// which the guilty field is named.
fn count(ending: &str, file: &[u8]) -> (usize, usize) {
    let (mut list, mut refused, mut named) = (vec![], 0, 0);
    fields(file, 0, file.len(), &mut list);
    for (at, by) in list.into_iter().flat_map(|at| [(at, 1), (at, -1)]) {
        let mut damaged = file.to_vec();
        let length = i32::from(u16::from_be_bytes([file[at + 1], file[at + 2]])) + by;
        let Ok(length) = u16::try_from(length) else { continue };
        damaged[at + 1..at + 3].copy_from_slice(&length.to_be_bytes());
        let Some(fault) = fault(ending, &damaged) else { continue };
        refused += 1;
        let hint = fault.hint.unwrap_or_default();
        named += usize::from(hint.contains(&format!("at byte {at} ")));
    }
    (refused, named)
}

#[test]
fn the_guilty_field_is_named() {
    let (mut refused, mut named) = (0, 0);
    for ending in ["language", "translation", "pack"] {
        for path in files(ending) {
            let file = std::fs::read(&path).expect("a file");
            let (of, found) = count(ending, &file);
            refused += of;
            named += found;
        }
    }
    assert!(refused >= 104, "{refused}");
    assert!(100 * named >= ASKED * refused, "{named} of {refused}");
}

#[test]
fn a_hint_tells_length_or_tag() {
    let strap = Path::new(env!("CARGO_MANIFEST_DIR")).join("../examples/strap/strap.language");
    let mut tag = std::fs::read(strap).expect("a language");
    tag[8] = 0x13;
    let hint = explain::language(&tag).and_then(|fault| fault.hint);
    assert_eq!(hint.as_deref(), Some("with tag 12 in place of 13, the field at byte 8 is whole"));
}
