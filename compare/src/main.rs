//! Holds the static library and the program against the reference.

use compare::{program, rebuilt, rows, steps, walks};
use std::path::Path;
use std::process::ExitCode;

const USAGE: &str = "usage: compare steps | rebuilt | walks | rows | program PATH | all PATH";

fn main() -> ExitCode {
    let arguments: Vec<String> = std::env::args().skip(1).collect();
    let words: Vec<&str> = arguments.iter().map(String::as_str).collect();
    let well = match words[..] {
        ["steps"] => steps::run(),
        ["rebuilt"] => rebuilt::run(),
        ["walks"] => walks::run(),
        ["rows"] => rows::run(),
        ["program", path] => program::run(Path::new(path)),
        ["all", path] => all(Path::new(path)),
        _ => {
            eprintln!("{USAGE}");
            false
        }
    };
    if well {
        ExitCode::SUCCESS
    } else {
        ExitCode::FAILURE
    }
}

/// Every comparison, also after one that fails.
fn all(path: &Path) -> bool {
    let results = [
        steps::run(),
        rebuilt::run(),
        walks::run(),
        rows::run(),
        program::run(path),
    ];
    let well = results.iter().all(|&well| well);
    println!("all: {}", if well { "nothing differs" } else { "FAILED" });
    well
}
