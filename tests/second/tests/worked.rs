//! The runs that document 01 works by hand, A to J, with every value that it states.

use second::judge::{judge, History};
use second::rules::{Inputs, Refusal, Table, MOST_STEPS, PUT, TAKE};
use second::run::phase::Record;
use second::run::step::Counts;
use second::run::{run, Lent, Outcome};
use second::{fast, listing, runfile};

/// What a run fills, as far as it fills it.
struct Filled {
    outcome: Outcome,
    code: Vec<u32>,
    event_sample: Vec<i32>,
    order: Vec<u32>,
    slots: Vec<(u8, i32)>,
    records: Vec<Record>,
}

/// Runs with lists that are longer than needed, and tests that nothing after the filled entries changed.
fn run_all(inputs: &Inputs) -> Result<Filled, Refusal> {
    let odd = Record { phase: 99, number: 99, end: 99 };
    let (mut code, mut event_sample, mut order) = (vec![999; 300], vec![999; 300], vec![999; 200]);
    let (mut slot_mark, mut slot_sample, mut record) = (vec![99; 80], vec![999; 80], vec![odd; 20]);
    let result = run(
        inputs,
        &mut Lent {
            event_code: &mut code,
            event_sample: &mut event_sample,
            order: &mut order,
            slot_mark: &mut slot_mark,
            slot_sample: &mut slot_sample,
            record: &mut record,
        },
    );
    let (events, ordered, slots, threads) = match result {
        Ok(outcome) => (outcome.events, outcome.ordered, inputs.slots, inputs.threads),
        Err(_) => (0, 0, 0, 0),
    };
    assert!(code[events..].iter().all(|&entry| entry == 999));
    assert!(event_sample[events..].iter().all(|&entry| entry == 999));
    assert!(order[ordered..].iter().all(|&entry| entry == 999));
    assert!(slot_mark[slots..].iter().all(|&entry| entry == 99));
    assert!(slot_sample[slots..].iter().all(|&entry| entry == 999));
    assert!(record[threads..].iter().all(|&entry| entry == odd));
    Ok(Filled {
        outcome: result?,
        code: code[..events].to_vec(),
        event_sample: event_sample[..events].to_vec(),
        order: order[..ordered].to_vec(),
        slots: slot_mark[..slots].iter().copied().zip(slot_sample[..slots].iter().copied()).collect(),
        records: record[..threads].to_vec(),
    })
}

const A: Inputs = Inputs {
    threads: 3,
    slots: 2,
    table: Table { thread: &[0, 1, 2], kind: &[PUT, PUT, TAKE], sample: &[100, 0, 0] },
    schedule: &[0, 0, 1, 1, 1, 1, 2, 2, 2, 0, 2, 2, 0],
};

const B: Inputs = Inputs {
    table: Table { thread: &[0, 1, 2], kind: &[PUT, PUT, TAKE], sample: &[5, 6, 0] },
    schedule: &[0, 0, 1, 1, 2, 2, 2, 0, 1, 2, 2],
    ..A
};

const C: Inputs = Inputs { threads: 1, slots: 1, table: Table { thread: &[], kind: &[], sample: &[] }, schedule: &[] };

const E: Inputs = Inputs {
    table: Table { thread: &[0, 0], kind: &[PUT, TAKE], sample: &[7, 0] },
    schedule: &[0, 0, 0, 0, 0, 0, 0, 0],
    ..C
};

const H: Inputs = Inputs { table: Table { thread: &[0], kind: &[TAKE], sample: &[0] }, schedule: &[0, 0, 0], ..C };

/// The listing of run A as document 01 prints it, whole.
const LISTING_A: &str = "back\t2
event\tcall\t0
event\tcall\t1
event\treturn\t1
event\tcall\t2
event\treturn\t2\t0
event\treturn\t0
order\t1
order\t2
order\t0
slot\t0\t100
slot\t1\tempty
thread\t0\trest
thread\t1\trest
thread\t2\trest
count\tsteps\t13
count\tidle\t0
count\tstores\t2
count\tswaps\t2
count\tfinds\t1
count\tfruitless\t0
";

fn record(phase: u8, number: i32, end: u8) -> Record {
    Record { phase, number, end }
}

fn counts(steps: usize, idle: usize, stores: usize, swaps: usize, finds: usize, fruitless: usize) -> Counts {
    Counts { steps, idle, stores, swaps, finds, fruitless }
}

/// The same inputs as a run file, answered by both programs.
fn print_both(inputs: &Inputs) -> String {
    let mut text = vec![0; 65_536];
    let length = runfile::write(inputs, &mut text).expect("the inputs can be written");
    let simple = listing::answer(&text[..length]);
    let mut quick = Vec::new();
    fast::answer(&text[..length], &mut quick);
    assert_eq!(simple, quick);
    let mut listed = vec![0; 20_000];
    let listed_length = listing::list(inputs, &mut listed).expect("the inputs can be listed");
    assert_eq!(simple, listed[..listed_length]);
    String::from_utf8(simple).unwrap()
}

#[test]
fn run_a() {
    assert_eq!(print_both(&A), LISTING_A);
    let filled = run_all(&A).unwrap();
    assert_eq!(filled.code, [0, 2, 3, 4, 5, 1]);
    assert_eq!(filled.event_sample, [0; 6]);
    assert_eq!(filled.order, [1, 2, 0]);
    assert_eq!(filled.slots, [(1, 100), (0, 0)]);
    assert_eq!(filled.records, [record(0, 0, 0); 3]);
    assert_eq!(filled.outcome, Outcome { events: 6, ordered: 3, back: 2, counts: counts(13, 0, 2, 2, 1, 0) });
}

#[test]
fn run_b() {
    let filled = run_all(&B).unwrap();
    assert_eq!(filled.code, [0, 2, 4, 5]);
    assert_eq!(filled.event_sample, [0, 0, 0, 6]);
    assert_eq!(filled.order, [1, 2, 0]);
    assert_eq!(filled.slots, [(1, 5), (0, 0)]);
    assert_eq!(filled.records, [record(3, 0, 0), record(3, 0, 0), record(0, 0, 0)]);
    assert!(print_both(&B).contains("thread\t0\tstored\nthread\t1\tstored\nthread\t2\trest\n"));
}

#[test]
fn runs_c_and_d() {
    let filled = run_all(&C).unwrap();
    assert_eq!((filled.outcome.events, filled.outcome.ordered), (0, 0));
    let filled = run_all(&Inputs { schedule: &[0, 0, 0], ..C }).unwrap();
    assert_eq!(filled.outcome, Outcome { events: 0, ordered: 0, back: 0, counts: counts(3, 3, 0, 0, 0, 0) });
}

#[test]
fn runs_e_f_and_g() {
    let filled = run_all(&E).unwrap();
    assert_eq!((filled.order, filled.slots), (vec![0, 1], vec![(0, 0)]));
    let filled = run_all(&Inputs { schedule: &[0; 7], ..E }).unwrap();
    assert_eq!((filled.order, filled.records), (vec![0, 1], vec![record(6, 7, 0)]));
    assert!(print_both(&Inputs { schedule: &[0; 7], ..E }).contains("thread\t0\tholding\t7\n"));
    let filled = run_all(&Inputs { schedule: &[0; 2], ..E }).unwrap();
    assert_eq!((filled.outcome.back, filled.slots, filled.order), (1, vec![(0, 0)], vec![]));
}

#[test]
fn run_h() {
    let filled = run_all(&H).unwrap();
    assert_eq!(filled.records, [record(4, 0, 0)]);
    assert_eq!(filled.outcome.counts, counts(3, 0, 0, 0, 0, 0));
    assert!(print_both(&H).contains("thread\t0\tcalled-take\n"));
}

#[test]
fn case_i() {
    let filled = run_all(&A).unwrap();
    let history = History { code: &filled.code, sample: &filled.event_sample };
    let cases: [(&[u32], u32); 5] =
        [(&[1, 2, 0], 0), (&[0, 1, 2], 24), (&[1, 2], 22), (&[2, 1, 0], 23), (&[1, 1, 2], 20)];
    for (order, verdict) in cases {
        assert_eq!(judge(3, &A.table, &history, order), Ok(verdict), "{order:?}");
    }
}

#[test]
fn run_j() {
    let refused = |number, detail| Some(Refusal { number, detail });
    assert_eq!(run_all(&Inputs { threads: 0, slots: 0, ..C }).err(), refused(1, 0));
    assert_eq!(run_all(&Inputs { threads: 16, ..C }).err(), None);
    assert_eq!(run_all(&Inputs { threads: 17, ..C }).err(), refused(1, 0));
    let two = Table { thread: &[0, 0], kind: &[PUT, PUT], sample: &[1, 2] };
    assert_eq!(run_all(&Inputs { table: two, ..C }).err(), refused(6, 0));
    assert_eq!(run_all(&Inputs { table: two, slots: 2, ..C }).err(), None);
    assert_eq!(run_all(&Inputs { schedule: &[0; MOST_STEPS], ..C }).err(), None);
    assert_eq!(run_all(&Inputs { schedule: &[0; MOST_STEPS + 1], ..C }).err(), refused(7, 0));
}

#[test]
fn each_short_list_is_refusal_9() {
    for short in 0..6 {
        let room = |list: usize, needed: usize| needed - usize::from(list == short);
        let mut lent = (vec![0; room(0, 6)], vec![0; room(1, 6)], vec![0; room(2, 3)]);
        let mut more = (vec![0; room(3, 2)], vec![0; room(4, 2)], vec![Record::default(); room(5, 3)]);
        let lent = &mut Lent {
            event_code: &mut lent.0,
            event_sample: &mut lent.1,
            order: &mut lent.2,
            slot_mark: &mut more.0,
            slot_sample: &mut more.1,
            record: &mut more.2,
        };
        assert_eq!(run(&A, lent), Err(Refusal { number: 9, detail: 0 }));
    }
}

#[test]
fn the_lowest_refusal_is_given() {
    let refused = |number, detail| Some(Refusal { number, detail });
    let uneven = Table { thread: &[0], kind: &[9, 9], sample: &[0] };
    assert_eq!(run_all(&Inputs { table: uneven, ..C }).err(), refused(3, 0));
    assert_eq!(run_all(&Inputs { table: uneven, slots: 65, ..C }).err(), refused(2, 0));
    let bad = Table { thread: &[0, 1, 0], kind: &[PUT, PUT, 0], sample: &[1, 1, 1] };
    assert_eq!(run_all(&Inputs { table: bad, schedule: &[0, 1], ..C }).err(), refused(5, 1));
    let sampled = Table { thread: &[0, 0], kind: &[TAKE, TAKE], sample: &[0, 1] };
    assert_eq!(run_all(&Inputs { table: sampled, ..C }).err(), refused(5, 1));
    assert_eq!(run_all(&Inputs { schedule: &[0, 0, 1, 1], ..C }).err(), refused(8, 2));
    let many = Table { thread: &[9; 129], kind: &[PUT; 129], sample: &[0; 129] };
    assert_eq!(run_all(&Inputs { table: many, ..C }).err(), refused(4, 0));
}
