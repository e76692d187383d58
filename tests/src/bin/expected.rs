//! Compares the stored outputs of the test programs with those that the model makes, or writes them.

use brittomaz_tests::expected::{first_difference, outputs, Output};
use std::io;
use std::path::Path;
use std::process::ExitCode;

const USAGE: &str = "expected [--write] DIR, the directory of the crates";

fn main() -> ExitCode {
    let arguments: Vec<String> = std::env::args().skip(1).collect();
    let arguments: Vec<&str> = arguments.iter().map(String::as_str).collect();
    let done = match arguments[..] {
        ["--write", crates] => write(Path::new(crates)).map(|()| true),
        [crates] if crates != "--write" => compare(Path::new(crates)),
        _ => {
            eprintln!("{USAGE}");
            return ExitCode::from(2);
        }
    };
    match done {
        Ok(true) => ExitCode::SUCCESS,
        Ok(false) => ExitCode::FAILURE,
        Err(error) => {
            eprintln!("the outputs could not be read or written: {error}");
            ExitCode::FAILURE
        }
    }
}

fn write(crates: &Path) -> io::Result<()> {
    for Output { file, bytes } in outputs(crates)? {
        std::fs::write(file, bytes)?;
    }
    Ok(())
}

/// Whether every stored output is the one made. The first line that differs is printed.
fn compare(crates: &Path) -> io::Result<bool> {
    let mut equal = true;
    for Output { file, bytes } in outputs(crates)? {
        let stored = std::fs::read(&file)?;
        if let Some((number, stored, made)) = first_difference(&stored, &bytes) {
            println!("{}:{number}: stored is", file.display());
            println!("  {stored:?}\nand the model makes\n  {made:?}");
            equal = false;
        }
    }
    Ok(equal)
}
