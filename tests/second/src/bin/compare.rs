//! `compare --bench PATH --cases N --seed S [--save FOLDER] [-- ARGUMENTS]`: gives each case to the bench program on
//! standard input and compares what it prints, byte for byte, with the listing of this package.
//!
//! Two bench processes run at a time. A bench may answer and stop before it has read all of its input. The last line
//! is `N passed, M failed`; the exit status is 1 if any failed, 2 if the call was wrong.

use second::{gen, listing};
use std::collections::BTreeMap;
use std::io::{Read, Write};
use std::path::{Path, PathBuf};
use std::process::{Command, Stdio};
use std::sync::atomic::{AtomicU64, AtomicUsize, Ordering};
use std::sync::{mpsc, Mutex};
use std::time::Duration;

const WORKERS: usize = 2;
/// How long one case may take, and how many such cases end the comparison.
const PATIENCE: Duration = Duration::from_secs(20);
const MOST_SILENT: usize = 3;
/// No listing is longer than this.
const MOST_OUTPUT: u64 = 1 << 20;
/// Mismatches told in full: those with the lowest case numbers.
const MOST_TOLD: usize = 5;

struct Options {
    bench: PathBuf,
    arguments: Vec<String>,
    cases: u64,
    seed: u64,
    save: PathBuf,
}

/// What a bench printed, or why there is nothing to compare.
type Printed = Result<Vec<u8>, String>;

/// What the workers share.
#[derive(Default)]
struct Tally {
    next: AtomicU64,
    passed: AtomicU64,
    failed: AtomicU64,
    silent: AtomicUsize,
    outcomes: Mutex<BTreeMap<String, u64>>,
    mismatches: Mutex<BTreeMap<u64, Printed>>,
}

fn main() {
    let Some(options) = read_options() else {
        eprintln!("compare --bench PATH [--cases N] [--seed S] [--save FOLDER] [-- ARGUMENTS OF THE BENCH]");
        std::process::exit(2);
    };
    let tally = Tally::default();
    std::thread::scope(|scope| {
        for _ in 0..WORKERS {
            scope.spawn(|| work(&options, &tally));
        }
    });
    for (number, printed) in tally.mismatches.into_inner().unwrap() {
        tell(&options, number, &printed);
    }
    let (passed, failed) = (tally.passed.into_inner(), tally.failed.into_inner());
    let outcomes = tally.outcomes.into_inner().unwrap();
    let told: Vec<String> = outcomes.iter().map(|(outcome, many)| format!("{outcome} {many}")).collect();
    println!("seed {}; expected outcomes: {}", options.seed, told.join(", "));
    println!("{passed} passed, {failed} failed");
    std::process::exit(i32::from(failed > 0 || passed < options.cases));
}

/// The options of the call, or `None` if it is wrong.
fn read_options() -> Option<Options> {
    let mut options = Options {
        bench: PathBuf::new(),
        arguments: Vec::new(),
        cases: 3_000,
        seed: gen::DEFAULT_SEED,
        save: std::env::temp_dir(),
    };
    let mut given = std::env::args().skip(1);
    while let Some(name) = given.next() {
        match name.as_str() {
            "--bench" => options.bench = std::fs::canonicalize(given.next()?).ok()?,
            "--cases" => options.cases = given.next()?.parse().ok()?,
            "--seed" => options.seed = given.next()?.parse().ok()?,
            "--save" => options.save = given.next()?.into(),
            "--" => options.arguments = given.by_ref().collect(),
            _ => return None,
        }
    }
    (options.bench.is_file() && options.cases > 0).then_some(options)
}

/// Takes cases until none is left, or the bench has been silent too often.
fn work(options: &Options, tally: &Tally) {
    loop {
        let number = tally.next.fetch_add(1, Ordering::Relaxed);
        if number >= options.cases || tally.silent.load(Ordering::Relaxed) >= MOST_SILENT {
            return;
        }
        let case = gen::make_case(options.seed, number);
        let expected = listing::answer(&case.text);
        *tally.outcomes.lock().unwrap().entry(outcome_of(&expected)).or_default() += 1;
        let printed = ask(options, &case.text);
        if printed.as_ref() == Ok(&expected) {
            tally.passed.fetch_add(1, Ordering::Relaxed);
            continue;
        }
        if printed.is_err() {
            tally.silent.fetch_add(1, Ordering::Relaxed);
        }
        tally.failed.fetch_add(1, Ordering::Relaxed);
        let mut mismatches = tally.mismatches.lock().unwrap();
        mismatches.insert(number, printed);
        if mismatches.len() > MOST_TOLD {
            mismatches.pop_last();
        }
    }
}

/// `listed`, or `refused` with its number.
fn outcome_of(expected: &[u8]) -> String {
    let mut fields = expected.split(|&byte| byte == b'\t');
    match fields.next() {
        Some(b"refused") => format!("refused {}", String::from_utf8_lossy(fields.next().unwrap_or_default())),
        _ => "listed".to_string(),
    }
}

/// What the bench prints for this text. Writing and reading go on at once, so that neither side waits for ever, and a
/// bench that stops reading is no error.
fn ask(options: &Options, text: &[u8]) -> Printed {
    let mut command = Command::new(&options.bench);
    command.args(&options.arguments).stdin(Stdio::piped()).stdout(Stdio::piped()).stderr(Stdio::null());
    let mut child = command.spawn().map_err(|error| format!("it cannot be started: {error}"))?;
    let (mut input, output) = (child.stdin.take().unwrap(), child.stdout.take().unwrap());
    let (sender, receiver) = mpsc::channel();
    let answer = std::thread::scope(|scope| {
        scope.spawn(move || drop(input.write_all(text)));
        scope.spawn(move || {
            let mut printed = Vec::new();
            let whole = output.take(MOST_OUTPUT).read_to_end(&mut printed);
            drop(sender.send(whole.map(|_| printed)));
        });
        let answer = receiver.recv_timeout(PATIENCE);
        // What it printed is whole by now or never will be; ending it also frees a writer that still waits.
        drop(child.kill());
        answer
    });
    drop(child.wait());
    match answer {
        Ok(Ok(printed)) => Ok(printed),
        Ok(Err(error)) => Err(format!("its output cannot be read: {error}")),
        Err(_) => Err("it gave no whole answer in 20 seconds".to_string()),
    }
}

/// Tells one mismatch: the case, where its input is saved, and the first line that differs.
fn tell(options: &Options, number: u64, printed: &Printed) {
    let case = gen::make_case(options.seed, number);
    let path = options.save.join(format!("compare-seed{}-case{number}.run", options.seed));
    let saved = save(&path, &case.text);
    let difference = match printed {
        Err(reason) => format!("  the bench: {reason}"),
        Ok(printed) => first_difference(&listing::answer(&case.text), printed),
    };
    println!("mismatch: seed {} case {number} ({}), input {saved}\n{difference}", options.seed, case.kind);
}

fn save(path: &Path, text: &[u8]) -> String {
    match std::fs::write(path, text) {
        Ok(()) => format!("saved as {}", path.display()),
        Err(error) => format!("not saved: {error}"),
    }
}

/// The first line in which the two outputs differ, with its number from 1.
fn first_difference(expected: &[u8], printed: &[u8]) -> String {
    let lines = |bytes: &[u8]| bytes.split_inclusive(|&byte| byte == b'\n').map(<[u8]>::to_vec).collect::<Vec<_>>();
    let (expected, printed) = (lines(expected), lines(printed));
    let line = (0..).find(|&line| expected.get(line) != printed.get(line)).unwrap_or(0);
    let show = |lines: &[Vec<u8>]| lines.get(line).map_or("(nothing)".into(), |line| line.escape_ascii().to_string());
    format!("  line {}\n  expected: {}\n  printed:  {}", line + 1, show(&expected), show(&printed))
}
