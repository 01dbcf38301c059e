//! The programs as they are run: `compare` passes `answer` and `fast`, and fails each planted fault and odd bench.

use second::fault::FAULTS;
use std::path::PathBuf;
use std::process::{Command, Output};

const COMPARE: &str = env!("CARGO_BIN_EXE_compare");
const ANSWER: &str = env!("CARGO_BIN_EXE_answer");
const FAST: &str = env!("CARGO_BIN_EXE_fast");
const SHOWS: &str = env!("CARGO_BIN_EXE_shows");

/// Compares at the default seed; mismatching inputs are saved among the build's own files.
fn compare(bench: &str, cases: u32, arguments: &[&str]) -> (Option<i32>, String) {
    let folder = PathBuf::from(env!("CARGO_TARGET_TMPDIR"));
    let mut command = Command::new(COMPARE);
    command.args(["--bench", bench, "--cases", &cases.to_string(), "--save"]).arg(folder).arg("--").args(arguments);
    let Output { status, stdout, .. } = command.output().expect("compare runs");
    (status.code(), String::from_utf8(stdout).unwrap())
}

#[test]
fn the_right_programs_pass() {
    for bench in [ANSWER, FAST] {
        let (code, told) = compare(bench, 1_500, &[]);
        assert_eq!((code, told.lines().last()), (Some(0), Some("1500 passed, 0 failed")), "{told}");
    }
}

#[test]
fn each_planted_fault_fails() {
    for (name, _) in FAULTS {
        let (code, told) = compare(ANSWER, 900, &["--fault", name]);
        assert_eq!(code, Some(1), "{name}: {told}");
        assert!(told.contains("mismatch: seed 1 case "), "{name}: {told}");
        println!("{name}: {}", told.lines().last().unwrap());
    }
}

/// Runs A and B, cases 0 and 1, show puts ordered by reservation; the right listings are saved beside them.
#[test]
fn shows_names_the_first_cases_and_saves_them() {
    let folder = PathBuf::from(env!("CARGO_TARGET_TMPDIR"));
    let mut command = Command::new(SHOWS);
    command.args(["--fault", "order-by-reservation", "--most", "2", "--save"]).arg(&folder);
    let Output { status, stdout, .. } = command.output().expect("shows runs");
    assert_eq!((status.code(), stdout.as_slice()), (Some(0), &b"0\n1\n"[..]));
    for number in ["0", "1"] {
        let text = std::fs::read(folder.join(format!("{number}.run"))).unwrap();
        let saved = std::fs::read(folder.join(format!("{number}.listing"))).unwrap();
        assert_eq!(saved, second::listing::answer(&text));
    }
    let none = Command::new(SHOWS).args(["--fault", "count-again", "--cases", "3"]).output().unwrap();
    assert_eq!((none.status.code(), none.stdout.len()), (Some(1), 0));
}

/// A bench that prints nothing, or something else, and reads no input fails, and nothing waits for ever.
#[test]
fn a_bench_that_does_not_read_fails() {
    for (bench, arguments) in [("/bin/true", ["x"; 1]), ("/bin/echo", ["back"; 1])] {
        let (code, told) = compare(bench, 130, &arguments);
        assert_eq!((code, told.lines().last()), (Some(1), Some("0 passed, 130 failed")), "{told}");
    }
}

#[test]
fn wrong_calls_are_status_2() {
    let status = |arguments: &[&str]| Command::new(COMPARE).args(arguments).output().unwrap().status.code();
    assert_eq!(status(&[]), Some(2));
    assert_eq!(status(&["--bench", "/nowhere/bench"]), Some(2));
    assert_eq!(status(&["--bench", ANSWER, "--cases", "0"]), Some(2));
    let answer = Command::new(ANSWER).args(["--fault", "none-such"]).output().unwrap();
    assert_eq!(answer.status.code(), Some(2));
    assert_eq!(Command::new(SHOWS).output().unwrap().status.code(), Some(2));
}
