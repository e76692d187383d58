//! Compares the library with the model on many files, good and broken.

use brittomaz_tests::differential::{run, Options};
use std::process::ExitCode;

const USAGE: &str = "differential [--cases N] [--seed S] [--lister PATH] [--listings M] \
                     [--save DIR] [--only CASE] [--only-listing CASE]";

/// Where inputs that differ are saved: in the directory that git ignores.
const SAVE: &str = concat!(env!("CARGO_MANIFEST_DIR"), "/../target/differences");

fn main() -> ExitCode {
    let Some(options) = read_options() else {
        eprintln!("{USAGE}");
        return ExitCode::from(2);
    };
    if run(&options) {
        ExitCode::SUCCESS
    } else {
        ExitCode::FAILURE
    }
}

fn read_options() -> Option<Options> {
    let mut options = Options {
        cases: 200_000,
        seed: 1985,
        lister: None,
        listings: 1_500,
        save: SAVE.into(),
        only: None,
        only_listing: None,
    };
    let mut arguments = std::env::args().skip(1);
    while let Some(name) = arguments.next() {
        let value = arguments.next()?;
        match name.as_str() {
            "--cases" => options.cases = value.parse().ok()?,
            "--seed" => options.seed = value.parse().ok()?,
            "--lister" => options.lister = Some(value.into()),
            "--listings" => options.listings = value.parse().ok()?,
            "--save" => options.save = value.into(),
            "--only" => options.only = Some(value.parse().ok()?),
            "--only-listing" => options.only_listing = Some(value.parse().ok()?),
            _ => return None,
        }
    }
    Some(options)
}
