//! Writes the sample files into a directory.

use brittomaz_tests::samples::write_samples;
use std::path::Path;
use std::process::ExitCode;

fn main() -> ExitCode {
    let Some(directory) = std::env::args_os().nth(1) else {
        eprintln!("samples DIR");
        return ExitCode::from(2);
    };
    match write_samples(Path::new(&directory)) {
        Ok(()) => ExitCode::SUCCESS,
        Err(error) => {
            eprintln!("the samples could not be written: {error}");
            ExitCode::FAILURE
        }
    }
}
