//! A whole run: cases, listings, differences, and whether it may be called a success.

use super::case::{listed_table, make, Case};
use super::compare::Comparer;
use super::difference::Difference;
use super::lister::compare_listing;
use super::save::{save, Origin};
use super::tally::Tally;
use crate::random::Random;
use crate::watch;
use std::ops::Range;
use std::path::PathBuf;

/// Differences after which a run stops.
const MOST_DIFFERENCES: u64 = 20;

/// What a run is to do.
pub struct Options {
    /// How many cases to compare.
    pub cases: u64,
    /// The seed that determines them.
    pub seed: u64,
    /// The lister, where its output is to be compared.
    pub lister: Option<PathBuf>,
    /// How many listings to compare.
    pub listings: u64,
    /// Where to save the inputs that differ.
    pub save: PathBuf,
    /// The one case to compare, all others left out.
    pub only: Option<u64>,
    /// The one listing to compare, all others left out.
    pub only_listing: Option<u64>,
}

/// Makes a run, prints what it saw, and answers whether all is well.
pub fn run(options: &Options) -> bool {
    watch::start();
    let mut tally = Tally::default();
    let (cases, listings) = match (options.only, options.only_listing) {
        (None, None) => (0..options.cases, 0..options.listings),
        (case, listing) => (alone(case), alone(listing)),
    };
    compare_cases(options, cases, &mut tally);
    compare_listings(options, listings, &mut tally);
    print!("{tally}");
    if tally.differences > 0 {
        println!("{} differences", tally.differences);
        return false;
    }
    let whole = options.only.is_none() && options.only_listing.is_none();
    !whole || nothing_missing(&tally)
}

/// The range of one number, or of none.
fn alone(number: Option<u64>) -> Range<u64> {
    number.map_or(0..0, |number| number..number.saturating_add(1))
}

fn compare_cases(options: &Options, numbers: Range<u64>, tally: &mut Tally) {
    let mut comparer = Comparer::default();
    for number in numbers {
        if tally.differences >= MOST_DIFFERENCES {
            return;
        }
        watch::at_case(number);
        let case = make(options.seed, number);
        let random = Random::of_case(options.seed.wrapping_add(1), number);
        tally.cases += 1;
        for difference in comparer.compare(&case, random, tally) {
            report(options, number, &difference, &case, tally);
        }
    }
}

fn compare_listings(options: &Options, numbers: Range<u64>, tally: &mut Tally) {
    let Some(lister) = &options.lister else {
        return;
    };
    for number in numbers {
        if tally.differences >= MOST_DIFFERENCES {
            return;
        }
        watch::at_case(number);
        let table = listed_table(options.seed, number);
        let mut random = Random::of_case(options.seed, number);
        let difference = match compare_listing(lister, &table, &mut random, tally) {
            Ok(difference) => difference,
            Err(error) => {
                println!("{} cannot be run: {error}", lister.display());
                tally.differences += 1;
                return;
            }
        };
        if let Some(difference) = difference {
            let case = Case {
                table,
                ..Case::default()
            };
            report(options, number, &difference, &case, tally);
        }
    }
}

fn report(options: &Options, number: u64, difference: &Difference, case: &Case, tally: &mut Tally) {
    tally.differences += 1;
    if tally.differences > MOST_DIFFERENCES {
        return;
    }
    let seed = options.seed;
    let call = difference.call.name();
    println!("{call}, seed {seed}, case {number}: {}", difference.what);
    match save(&options.save, Origin { seed, number }, difference, case) {
        Ok(paths) => paths
            .iter()
            .for_each(|path| println!("  {}", path.display())),
        Err(error) => println!("  the input could not be saved: {error}"),
    }
}

fn nothing_missing(tally: &Tally) -> bool {
    let missing = tally.missing();
    for what in &missing {
        println!("{what} never came up");
    }
    missing.is_empty()
}
