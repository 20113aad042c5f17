//! Writes XSLT sheets of translations.
//!
//! Usage: xslt sheet FILE prints the sheet of the translation in the file. xslt cases FOLDER COUNT
//! SEED writes so many random cases into the folder: a sheet (N.xsl), the export of a tree (N.xml)
//! and the export of its run (N.expected).

#![forbid(unsafe_code)]

use reference::generate::{sheet_case, Random};
use reference::xslt::sheet;
use std::fs;
use std::path::Path;
use std::process::ExitCode;

/// Prints the sheet of the translation in a file.
fn print_sheet(file: &str) -> Result<(), String> {
    let translation = fs::read(file).map_err(|error| format!("{file}: {error}"))?;
    let refused = |reason| format!("{file} is refused: {}", reason as u32);
    print!("{}", sheet(&translation).map_err(refused)?);
    Ok(())
}

/// Writes random cases into a folder.
fn write_cases(folder: &str, count: &str, seed: &str) -> Result<(), String> {
    let number = |text: &str| text.parse().map_err(|_| format!("{text} is not a number"));
    let (count, mut random) = (number(count)?, Random::new(number(seed)?));
    for case in 0..count {
        let (path, made) = (Path::new(folder).join(case.to_string()), sheet_case(&mut random));
        let files =
            [("xsl", made.sheet.as_bytes()), ("xml", &made.source), ("expected", &made.expected)];
        for (ending, contents) in files {
            let file = path.with_extension(ending);
            fs::write(&file, contents).map_err(|error| format!("{}: {error}", file.display()))?;
        }
    }
    Ok(())
}

fn main() -> ExitCode {
    let arguments: Vec<String> = std::env::args().skip(1).collect();
    let arguments: Vec<&str> = arguments.iter().map(String::as_str).collect();
    let done = match arguments[..] {
        ["sheet", file] => print_sheet(file),
        ["cases", folder, count, seed] => write_cases(folder, count, seed),
        _ => Err("usage: xslt sheet FILE, or xslt cases FOLDER COUNT SEED".to_string()),
    };
    match done {
        Ok(()) => ExitCode::SUCCESS,
        Err(message) => {
            eprintln!("{message}");
            ExitCode::from(2)
        }
    }
}
