//! Run A of document 01 from Rust: played, judged, and listed.
use outside::{judge, list, run, Lent, Refusal, Table, LISTING_ROOM};
use std::io::Write;

fn main() -> Result<(), Refusal> {
    let table = Table { thread: &[0, 1, 2], kind: &[1, 1, 2], sample: &[100, 0, 0] };
    let schedule = [0, 0, 1, 1, 1, 1, 2, 2, 2, 0, 2, 2, 0];

    let (mut codes, mut values, mut order) = ([0; 6], [0; 6], [0; 3]);
    let (mut marks, mut held) = ([0; 2], [0; 2]);
    let (mut phases, mut numbers, mut ends) = ([0; 3], [0; 3], [0; 3]);
    let lent = Lent {
        codes: &mut codes,
        values: &mut values,
        order: &mut order,
        marks: &mut marks,
        held: &mut held,
        phases: &mut phases,
        numbers: &mut numbers,
        ends: &mut ends,
    };
    let ran = run(3, 2, table, &schedule, lent)?;
    assert_eq!(order[..ran.order], [1, 2, 0]);
    assert_eq!((marks, held[0]), ([1, 0], 100));
    let verdict = judge(3, table, &codes[..ran.events], &values[..ran.events], &order[..ran.order])?;
    assert_eq!(verdict, 0);

    let mut text = [0; LISTING_ROOM];
    let bytes = list(3, 2, table, &schedule, &mut text)?;
    std::io::stdout().write_all(&text[..bytes]).expect("standard output takes it");
    Ok(())
}
