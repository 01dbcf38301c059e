//! Runs from outside: what an accepted run writes, and that a refused one writes nothing. Every list lies in a longer one, filled with
//! sentinels, and each test compares all of it.
use outside::{run, Lent, Refusal, Summary, Table};

const RUN_A: Table = Table { thread: &[0, 1, 2], kind: &[1, 1, 2], sample: &[100, 0, 0] };
const STEPS_A: &[u8] = &[0, 0, 1, 1, 1, 1, 2, 2, 2, 0, 2, 2, 0];

/// Entries behind the end of each lent list.
const BEHIND: usize = 5;

/// How many entries of each list are lent.
#[derive(Clone, Copy)]
struct Sizes {
    codes: usize,
    values: usize,
    order: usize,
    marks: usize,
    held: usize,
    phases: usize,
    numbers: usize,
    ends: usize,
}

fn exact(threads: usize, slots: usize, operations: usize) -> Sizes {
    Sizes {
        codes: 2 * operations,
        values: 2 * operations,
        order: operations,
        marks: slots,
        held: slots,
        phases: threads,
        numbers: threads,
        ends: threads,
    }
}

/// All eight lists, with what lies behind them.
#[derive(Clone, Debug, PartialEq)]
struct Memory {
    codes: Vec<u16>,
    values: Vec<i32>,
    order: Vec<u8>,
    marks: Vec<u8>,
    held: Vec<i32>,
    phases: Vec<u8>,
    numbers: Vec<i32>,
    ends: Vec<u8>,
}

/// Sentinels that differ from entry to entry, and from what a run writes.
fn fresh(s: Sizes) -> Memory {
    let small = |n: usize| (0..n + BEHIND).map(|i| 200 + (i % 50) as u8).collect::<Vec<u8>>();
    let wide = |n: usize| (0..n + BEHIND).map(|i| -7_000_000 - i as i32).collect::<Vec<i32>>();
    Memory {
        codes: (0..s.codes + BEHIND).map(|i| 60_000 + i as u16).collect(),
        values: wide(s.values),
        order: small(s.order),
        marks: small(s.marks),
        held: wide(s.held),
        phases: small(s.phases),
        numbers: wide(s.numbers),
        ends: small(s.ends),
    }
}

fn play(threads: usize, slots: usize, table: Table, schedule: &[u8], s: Sizes, m: &mut Memory) -> Result<Summary, Refusal> {
    let lent = Lent {
        codes: &mut m.codes[..s.codes],
        values: &mut m.values[..s.values],
        order: &mut m.order[..s.order],
        marks: &mut m.marks[..s.marks],
        held: &mut m.held[..s.held],
        phases: &mut m.phases[..s.phases],
        numbers: &mut m.numbers[..s.numbers],
        ends: &mut m.ends[..s.ends],
    };
    run(threads, slots, table, schedule, lent)
}

/// The first entries of a list are these.
fn put<T: Copy>(list: &mut [T], entries: &[T]) {
    list[..entries.len()].copy_from_slice(entries);
}

/// Refused, and every byte is as it was.
fn refuses(number: usize, detail: usize, threads: usize, slots: usize, table: Table, schedule: &[u8], s: Sizes) {
    let before = fresh(s);
    let mut memory = before.clone();
    assert_eq!(play(threads, slots, table, schedule, s, &mut memory), Err(Refusal { number, detail }));
    assert!(memory == before, "refusal {number} wrote something");
}

#[test]
fn run_a() {
    let s = exact(3, 2, 3);
    let mut memory = fresh(s);
    let summary = play(3, 2, RUN_A, STEPS_A, s, &mut memory);
    let counts = Summary { events: 6, order: 3, back: 2, steps: 13, idle: 0, stores: 2, swaps: 2, finds: 1, fruitless: 0 };
    assert_eq!(summary, Ok(counts));
    let mut then = fresh(s);
    put(&mut then.codes, &[0, 2, 3, 4, 5, 1]);
    put(&mut then.values, &[0; 6]);
    put(&mut then.order, &[1, 2, 0]);
    put(&mut then.marks, &[1, 0]);
    put(&mut then.held, &[100, 0]);
    put(&mut then.phases, &[0, 0, 0]);
    put(&mut then.numbers, &[0, 0, 0]);
    put(&mut then.ends, &[0, 0, 0]);
    assert_eq!(memory, then);
}

#[test]
fn entries_that_a_run_does_not_have_stay() {
    // Run A in the middle: events are fewer than there is room for, and every list is longer than asked.
    let s = Sizes { codes: 9, values: 11, order: 8, marks: 7, held: 6, phases: 5, numbers: 4, ends: 16 };
    let mut memory = fresh(s);
    let summary = play(3, 2, RUN_A, &STEPS_A[..9], s, &mut memory).expect("accepted");
    assert_eq!((summary.events, summary.order, summary.back), (4, 1, 2));
    let mut then = fresh(s);
    put(&mut then.codes, &[0, 2, 3, 4]);
    put(&mut then.values, &[0; 4]);
    put(&mut then.order, &[1]);
    put(&mut then.marks, &[0, 1]);
    put(&mut then.held, &[0, 0]);
    // Thread 0 has reserved slot 0; thread 2 scans, at slot 1 of a pass that ends at 2.
    put(&mut then.phases, &[2, 0, 5]);
    put(&mut then.numbers, &[0, 0, 1]);
    put(&mut then.ends, &[0, 0, 2]);
    assert_eq!(memory, then);
}

#[test]
fn records_of_each_phase() {
    // One thread, put -5 then take: the record after each number of steps.
    let table = Table { thread: &[0, 0], kind: &[1, 2], sample: &[-5, 0] };
    let shown = [(0, 0, 0), (1, 0, 0), (2, 0, 0), (3, 0, 0), (0, 0, 0), (4, 0, 0), (5, 0, 1), (6, -5, 0), (0, 0, 0)];
    for (steps, record) in shown.iter().enumerate() {
        let s = exact(1, 1, 2);
        let mut memory = fresh(s);
        play(1, 1, table, &[0; 8][..steps], s, &mut memory).expect("accepted");
        assert_eq!((memory.phases[0], memory.numbers[0], memory.ends[0]), *record, "after {steps} steps");
    }
}

#[test]
fn empty_lists() {
    let none = Table { thread: &[], kind: &[], sample: &[] };
    let s = exact(1, 1, 0);
    let mut memory = fresh(s);
    let summary = play(1, 1, none, &[0, 0, 0], s, &mut memory).expect("accepted");
    assert_eq!((summary.events, summary.order, summary.steps, summary.idle), (0, 0, 3, 3));
}

#[test]
fn refusals_of_the_input_write_nothing() {
    let s = exact(17, 65, 200);
    let two = Table { thread: &[0, 0], kind: &[1, 1], sample: &[1, 2] };
    let many = [0u8; 4097];
    refuses(1, 0, 0, 0, RUN_A, STEPS_A, s);
    refuses(1, 0, 17, 2, RUN_A, STEPS_A, s);
    refuses(2, 0, 3, 65, RUN_A, STEPS_A, s);
    refuses(3, 0, 3, 2, Table { kind: &[1, 1], ..RUN_A }, STEPS_A, s);
    refuses(4, 0, 3, 2, Table { thread: &[0; 129], kind: &[2; 129], sample: &[0; 129] }, STEPS_A, s);
    refuses(5, 1, 3, 2, Table { kind: &[1, 3, 2], ..RUN_A }, STEPS_A, s);
    refuses(5, 2, 3, 2, Table { sample: &[100, 0, 1], ..RUN_A }, STEPS_A, s);
    refuses(6, 0, 3, 1, two, STEPS_A, s);
    refuses(7, 0, 3, 2, RUN_A, &many, s);
    refuses(8, 4, 3, 2, RUN_A, &[0, 1, 2, 0, 3, 0], s);
}

#[test]
fn refusal_9_writes_nothing() {
    let s = exact(3, 2, 3);
    refuses(9, 0, 3, 2, RUN_A, STEPS_A, Sizes { codes: 5, ..s });
    refuses(9, 0, 3, 2, RUN_A, STEPS_A, Sizes { values: 5, ..s });
    refuses(9, 0, 3, 2, RUN_A, STEPS_A, Sizes { order: 2, ..s });
    refuses(9, 0, 3, 2, RUN_A, STEPS_A, Sizes { marks: 1, ..s });
    refuses(9, 0, 3, 2, RUN_A, STEPS_A, Sizes { held: 1, ..s });
    refuses(9, 0, 3, 2, RUN_A, STEPS_A, Sizes { phases: 2, ..s });
    refuses(9, 0, 3, 2, RUN_A, STEPS_A, Sizes { numbers: 2, ..s });
    refuses(9, 0, 3, 2, RUN_A, STEPS_A, Sizes { ends: 2, ..s });
    refuses(9, 0, 3, 2, RUN_A, STEPS_A, Sizes { phases: 0, numbers: 0, ends: 0, ..s });
}

#[test]
fn the_bounds_pass() {
    let steps = [15u8; 4096];
    let mut memory = fresh(exact(16, 64, 128));
    let table = Table { thread: &[15; 128], kind: &[2; 128], sample: &[0; 128] };
    let summary = play(16, 64, table, &steps, exact(16, 64, 128), &mut memory).expect("accepted");
    assert_eq!((summary.steps, summary.events, memory.phases[15]), (4096, 1, 4));
}
