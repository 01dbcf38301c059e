//! `compare_library` as it is run: exit status and last line.

use std::process::Command;

/// Exit status and last line of a call.
fn call(arguments: &[&str]) -> (Option<i32>, String) {
    let output = Command::new(env!("CARGO_BIN_EXE_compare_library")).args(arguments).output().expect("it runs");
    let told = String::from_utf8(output.stdout).unwrap();
    (output.status.code(), told.lines().last().unwrap_or_default().to_string())
}

#[test]
fn status_and_last_line() {
    assert_eq!(call(&["--cases", "200", "--seed", "7"]), (Some(0), "200 passed, 0 failed".to_string()));
    let (status, last) = call(&["--cases", "200", "--fault", "run-touches-behind"]);
    assert_eq!(status, Some(1), "{last}");
    assert!(last.ends_with(" failed") && !last.ends_with(" 0 failed"), "{last}");
}

#[test]
fn wrong_calls_are_status_2() {
    for arguments in [&["--cases", "0"][..], &["--cases", "many"], &["--fault", "none-such"], &["--seed"], &["x"]] {
        assert_eq!(call(arguments), (Some(2), String::new()), "{arguments:?}");
    }
}
