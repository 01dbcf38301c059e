//! The generated cases: what they reach, that `fast` agrees on them, and that they show every planted fault.

use second::fault::FAULTS;
use second::gen::{make_case, DEFAULT_SEED};
use second::{fast, listing};
use std::collections::BTreeSet;

const CASES: u64 = 3_000;

#[test]
fn fast_prints_the_same_bytes() {
    let mut quick = Vec::new();
    for number in 0..4 * CASES {
        let text = make_case(DEFAULT_SEED + 1, number).text;
        quick.clear();
        fast::answer(&text, &mut quick);
        assert!(quick == listing::answer(&text), "case {number}");
    }
}

#[test]
fn cases_reach_every_answer() {
    let mut seen = BTreeSet::new();
    let (mut full, mut exact, mut over) = (0, 0, 0);
    for number in 0..CASES {
        let text = make_case(DEFAULT_SEED, number).text;
        exact += usize::from(text.len() == 65_536);
        over += usize::from(text.len() == 65_537);
        let printed = String::from_utf8(listing::answer(&text)).unwrap();
        full += usize::from(printed.contains("count\tsteps\t4096\n") && printed.contains("slot\t63\t"));
        seen.extend(printed.lines().map(form_of));
    }
    let words = ["rest", "called-put", "reserved", "stored", "called-take", "scanning", "holding"];
    let refusals = ["1", "2", "4", "5", "6", "7", "8", "11", "12"];
    for wanted in words.map(|word| format!("thread {word}")) {
        assert!(seen.contains(&wanted), "{wanted}");
    }
    for wanted in refusals.map(|number| format!("refused {number}")) {
        assert!(seen.contains(&wanted), "{wanted}");
    }
    assert!(full > 20 && exact > 20 && over > 20, "{full} {exact} {over}");
}

/// A line's first word, with the phase word or refusal number.
fn form_of(line: &str) -> String {
    let fields: Vec<&str> = line.split('\t').collect();
    match fields[0] {
        "thread" => format!("thread {}", fields[2]),
        "refused" => format!("refused {}", fields[1]),
        word => word.to_string(),
    }
}

/// How many of the default cases each fault changes; all of them change some.
#[test]
fn cases_show_every_planted_fault() {
    let mut shown = [0; FAULTS.len()];
    for number in 0..CASES {
        let text = make_case(DEFAULT_SEED, number).text;
        let right = listing::answer(&text);
        for (place, (_, fault)) in FAULTS.iter().enumerate() {
            shown[place] += usize::from(listing::answer_with(&text, *fault) != right);
        }
    }
    for ((name, _), many) in FAULTS.iter().zip(shown) {
        println!("{name}: {many} of {CASES} cases");
        assert!(many >= 10, "{name} shows in {many} cases");
    }
}
