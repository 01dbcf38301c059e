//! `compare_library [--cases N] [--seed S] [--fault NAME]`: compares the library with the second program, case by case.
//!
//! The last line is `N passed, M failed`; the exit status is 1 if any failed, 2 if the call was wrong.

use library::case::{self, Tally};
use library::fault::{self, Fault, FAULTS};
use library::library::Library;

/// Mismatches told in full: those with the lowest case numbers.
const MOST_TOLD: u64 = 5;

struct Options {
    cases: u64,
    seed: u64,
    fault: Fault,
}

fn main() {
    let Some(options) = read_options() else {
        eprintln!("compare_library [--cases N] [--seed S] [--fault NAME], where NAME is one of:");
        eprintln!("{}", FAULTS.map(|(name, _)| name).join(" "));
        std::process::exit(2);
    };
    let mut tally = Tally::new();
    let (mut passed, mut failed) = (0, 0);
    for number in 0..options.cases {
        match case::check(Library { fault: options.fault }, options.seed, number, &mut tally) {
            Ok(()) => passed += 1,
            Err(difference) => {
                failed += 1;
                if failed <= MOST_TOLD {
                    println!("mismatch: seed {} case {number}, {difference}", options.seed);
                }
            }
        }
    }
    let told: Vec<String> = tally.iter().map(|(outcome, many)| format!("{outcome} {many}")).collect();
    println!("seed {}; expected outcomes: {}", options.seed, told.join("; "));
    println!("{passed} passed, {failed} failed");
    std::process::exit(i32::from(failed > 0));
}

/// The options of the call, or `None` if it is wrong.
fn read_options() -> Option<Options> {
    let mut options = Options { cases: case::DEFAULT_CASES, seed: case::DEFAULT_SEED, fault: Fault::Nothing };
    let mut given = std::env::args().skip(1);
    while let Some(name) = given.next() {
        match name.as_str() {
            "--cases" => options.cases = given.next()?.parse().ok()?,
            "--seed" => options.seed = given.next()?.parse().ok()?,
            "--fault" => options.fault = fault::find(&given.next()?)?,
            _ => return None,
        }
    }
    (options.cases > 0).then_some(options)
}
