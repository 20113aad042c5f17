//! Runs the worked examples on the library. The last line says how many passed and failed.

#![forbid(unsafe_code)]

use reference::call::Call;
use reference::examples::examples;
use std::process::ExitCode;

fn main() -> ExitCode {
    let (mut passed, mut failed) = (0, 0);
    for example in examples() {
        match example.wrong(Call::by_library) {
            None => passed += 1,
            Some(wrong) => {
                failed += 1;
                println!("FAILED: {}, {}: {wrong}", example.call.operation(), example.what);
            }
        }
    }
    println!("{passed} passed, {failed} failed");
    ExitCode::from(u8::from(failed > 0))
}
