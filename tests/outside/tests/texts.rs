//! Run files and listings from outside: run A's read, written and listed, and refusals that write nothing.
use outside::{list, read, write, Reading, Refusal, Table, LISTING_ROOM};

const RUN_A: Table = Table { thread: &[0, 1, 2], kind: &[1, 1, 2], sample: &[100, 0, 0] };
const STEPS_A: &[u8] = &[0, 0, 1, 1, 1, 1, 2, 2, 2, 0, 2, 2, 0];
const TEXT_A: &[u8] = b"threads\t3\nslots\t2\nput\t0\t100\nput\t1\t0\ntake\t2\nstep\t0\nstep\t0\nstep\t1\nstep\t1\nstep\t1\nstep\t1\nstep\t2\nstep\t2\nstep\t2\nstep\t0\nstep\t2\nstep\t2\nstep\t0\n";
const LISTING_A: &[u8] = include_bytes!("../../../examples/a.listing");

/// Four lists in longer ones, filled with sentinels: thread, kind, sample, schedule.
#[derive(Clone, Debug, PartialEq)]
struct Memory(Vec<u8>, Vec<u8>, Vec<i32>, Vec<u8>);

fn fresh() -> Memory {
    Memory(vec![201; 140], vec![202; 140], vec![-7_000_000; 140], vec![203; 4200])
}

/// The reading of a text where these numbers of entries are lent.
fn read_into(text: &[u8], lent: [usize; 4], m: &mut Memory) -> Result<Reading, Refusal> {
    read(text, &mut m.0[..lent[0]], &mut m.1[..lent[1]], &mut m.2[..lent[2]], &mut m.3[..lent[3]])
}

fn refuses(number: usize, detail: usize, text: &[u8], lent: [usize; 4]) {
    let mut memory = fresh();
    assert_eq!(read_into(text, lent, &mut memory), Err(Refusal { number, detail }));
    assert!(memory == fresh(), "refusal {number} wrote something");
}

#[test]
fn reads_run_a() {
    for lent in [[3, 3, 3, 13], [140, 4, 5, 4200]] {
        let mut memory = fresh();
        assert_eq!(read_into(TEXT_A, lent, &mut memory), Ok(Reading { threads: 3, slots: 2, operations: 3, steps: 13 }));
        let mut then = fresh();
        then.0[..3].copy_from_slice(RUN_A.thread);
        then.1[..3].copy_from_slice(RUN_A.kind);
        then.2[..3].copy_from_slice(RUN_A.sample);
        then.3[..13].copy_from_slice(STEPS_A);
        assert_eq!(memory, then);
    }
}

#[test]
fn reading_refused_writes_nothing() {
    let room = [140, 140, 140, 4200];
    refuses(12, 0, &[10; 65537], room);
    refuses(11, 1, b"", room);
    refuses(11, 3, b"threads\t1\nslots\t1\ntake\t0", room);
    refuses(11, 4, b"threads\t1\nslots\t1\nput\t0\t7\nput\t0\t-0\n", room);
    refuses(1, 0, b"threads\t0\nslots\t0\n", room);
    refuses(2, 0, b"threads\t16\nslots\t65\n", room);
    refuses(5, 1, b"threads\t1\nslots\t1\ntake\t0\ntake\t1\n", room);
    refuses(6, 0, b"threads\t1\nslots\t1\nput\t0\t7\nput\t0\t8\n", room);
    refuses(8, 1, b"threads\t1\nslots\t1\nstep\t0\nstep\t255\n", room);
    refuses(9, 0, TEXT_A, [2, 3, 3, 13]);
    refuses(9, 0, TEXT_A, [3, 2, 3, 13]);
    refuses(9, 0, TEXT_A, [3, 3, 2, 13]);
    refuses(9, 0, TEXT_A, [3, 3, 3, 12]);
}

#[test]
fn writes_run_a() {
    for room in [TEXT_A.len(), TEXT_A.len() + 7] {
        let mut text = vec![204u8; 400];
        assert_eq!(write(3, 2, RUN_A, STEPS_A, &mut text[..room]), Ok(TEXT_A.len()));
        assert_eq!(&text[..TEXT_A.len()], TEXT_A);
        assert!(text[TEXT_A.len()..].iter().all(|b| *b == 204));
    }
}

#[test]
fn writing_refused_writes_nothing() {
    let cases = [(9, 0, 3, TEXT_A.len() - 1), (9, 0, 3, 0), (1, 0, 17, 400), (5, 2, 2, 400)];
    for (number, detail, threads, room) in cases {
        let mut text = vec![204u8; 400];
        assert_eq!(write(threads, 2, RUN_A, STEPS_A, &mut text[..room]), Err(Refusal { number, detail }));
        assert!(text.iter().all(|b| *b == 204), "refusal {number} wrote something");
    }
}

#[test]
fn samples_of_both_ends_come_back() {
    let table = Table { thread: &[0, 0, 0], kind: &[1, 1, 2], sample: &[i32::MIN, i32::MAX, 0] };
    let mut text = [0u8; 200];
    let bytes = write(1, 2, table, &[0; 5], &mut text).expect("accepted");
    let mut memory = fresh();
    assert_eq!(read_into(&text[..bytes], [3, 3, 3, 5], &mut memory), Ok(Reading { threads: 1, slots: 2, operations: 3, steps: 5 }));
    assert_eq!((&memory.0[..3], &memory.1[..3], &memory.2[..3], &memory.3[..5]), (table.thread, table.kind, table.sample, &[0; 5][..]));
}

#[test]
fn lists_run_a() {
    for room in [LISTING_A.len(), LISTING_A.len() + 7, LISTING_ROOM] {
        let mut text = vec![204u8; LISTING_ROOM + 7];
        assert_eq!(list(3, 2, RUN_A, STEPS_A, &mut text[..room]), Ok(LISTING_A.len()));
        assert_eq!(&text[..LISTING_A.len()], LISTING_A);
        assert!(text[LISTING_A.len()..].iter().all(|b| *b == 204), "wrote after the listing");
    }
}

/// The listing of run A's table where `room` bytes are lent.
fn listing_refuses(number: usize, detail: usize, threads: usize, slots: usize, schedule: &[u8], room: usize) {
    let mut text = vec![204u8; LISTING_ROOM];
    assert_eq!(list(threads, slots, RUN_A, schedule, &mut text[..room]), Err(Refusal { number, detail }));
    assert!(text.iter().all(|b| *b == 204), "refusal {number} wrote something");
}

#[test]
fn listing_refused_writes_nothing() {
    listing_refuses(1, 0, 0, 2, STEPS_A, LISTING_ROOM);
    listing_refuses(1, 0, 17, 2, STEPS_A, 0);
    listing_refuses(2, 0, 3, 65, STEPS_A, LISTING_ROOM);
    listing_refuses(5, 2, 2, 2, STEPS_A, LISTING_ROOM);
    listing_refuses(6, 0, 3, 1, STEPS_A, LISTING_ROOM);
    listing_refuses(7, 0, 3, 2, &[0; 4097], LISTING_ROOM);
    listing_refuses(8, 3, 3, 2, &[0, 1, 2, 3, 4], LISTING_ROOM);
    listing_refuses(9, 0, 3, 2, STEPS_A, LISTING_A.len() - 1);
    listing_refuses(9, 0, 3, 2, STEPS_A, 0);
}

#[test]
fn lists_a_large_run_in_the_room_that_always_suffices() {
    let thread: Vec<u8> = (0..128).map(|o| o % 16).collect();
    let kind: Vec<u8> = (0..128).map(|o| if o < 64 { 1 } else { 2 }).collect();
    let sample: Vec<i32> = (0..128).map(|o| if o < 64 { i32::MIN } else { 0 }).collect();
    let schedule: Vec<u8> = (0..4096).map(|i| (i % 16) as u8).collect();
    let table = Table { thread: &thread, kind: &kind, sample: &sample };
    let mut text = vec![204u8; LISTING_ROOM];
    let bytes = list(16, 64, table, &schedule, &mut text).expect("accepted");
    assert!(text[..bytes].ends_with(b"\n") && text[bytes..].iter().all(|b| *b == 204));
    let mut tight = vec![204u8; bytes];
    assert_eq!(list(16, 64, table, &schedule, &mut tight), Ok(bytes));
    assert_eq!(tight, text[..bytes]);
    let mut short = vec![204u8; bytes - 1];
    assert_eq!(list(16, 64, table, &schedule, &mut short), Err(Refusal { number: 9, detail: 0 }));
    assert!(short.iter().all(|b| *b == 204));
}
