//! Each planted fault is noticed within the default cases, and the library as it is passes them.

use library::case::{check, Tally, DEFAULT_CASES, DEFAULT_SEED};
use library::fault::{Fault, FAULTS};
use library::library::{Library, MAKERS};

/// The first of the default cases that fails with this fault.
fn first_failing(fault: Fault) -> Option<(u64, String)> {
    let failing = |number| {
        let difference = check(Library { fault }, DEFAULT_SEED, number, &mut Tally::new()).err()?;
        Some((number, difference))
    };
    (0..DEFAULT_CASES).find_map(failing)
}

#[test]
fn each_planted_fault_is_noticed() {
    for (name, fault) in FAULTS {
        let (number, difference) = first_failing(fault).unwrap_or_else(|| panic!("{name} is not noticed"));
        println!("{name}: case {number}, {}", difference.lines().next().unwrap());
    }
}

/// Only the search tells two judges that are wrong in the same way.
#[test]
fn the_search_notices_what_both_judges_pass() {
    let (_, difference) = first_failing(Fault::BothJudgesPass24).expect("it is noticed");
    assert!(difference.contains("by the search"), "{difference}");
}

/// The default cases pass, and every answer of every function is among those expected.
#[test]
fn the_library_passes_every_kind_of_case() {
    let mut tally = Tally::new();
    for number in 0..DEFAULT_CASES {
        let checked = check(Library { fault: Fault::Nothing }, DEFAULT_SEED, number, &mut tally);
        assert_eq!(checked, Ok(()), "case {number}");
    }
    let mut wanted = vec!["searched, linearization true".to_string(), "searched, linearization false".to_string()];
    wanted.extend([0, 20, 21, 22, 23, 24].map(|verdict| format!("verdict {verdict}")));
    wanted.extend(["run", "read", "judge"].map(|part| format!("{part} accepted")));
    wanted.extend((1..=9).map(|refusal| format!("run refused {refusal}")));
    wanted.extend([1, 3, 4, 5, 10].map(|refusal| format!("judge refused {refusal}")));
    wanted.extend([1, 2, 4, 5, 6, 7, 8, 9, 11, 12].map(|refusal| format!("read refused {refusal}")));
    for maker in &MAKERS {
        wanted.push(format!("{} accepted", maker.name));
        wanted.extend((1..=9).map(|refusal| format!("{} refused {refusal}", maker.name)));
    }
    for outcome in wanted {
        assert!(tally.get(&outcome).is_some_and(|&many| many >= 10), "{outcome} is too rare: {tally:?}");
    }
}
