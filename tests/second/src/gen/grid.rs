//! Systematic cases: every set of faults at once, every odd number in every field, and a text cut at every byte.

use super::damage;
use super::plan::{Op, Plan};

/// One case for each set of the faults that are refused as 1, 2, 4, 5, 6, 7, 8 and 11.
pub const FAULT_SETS: u64 = 1 << 8;

/// The run with the faults whose bits are set. Faults 5 and 8 stand at two places, so that the lowest is told.
pub fn make_fault_set(set: u64) -> Vec<u8> {
    let has = |bit: u32| set >> bit & 1 == 1;
    let mut plan = Plan { threads: 3, slots: 5, ..Plan::default() };
    plan.threads = if has(0) { 17 } else { 3 };
    plan.slots = if has(1) { 65 } else { 5 };
    let puts = if has(4) { plan.slots + 1 } else { 5 };
    let operations = if has(2) { 129 } else { puts + 5 };
    let op = |number: usize| Op { thread: number % 3, sample: (number < puts).then_some(number as i64) };
    plan.ops = (0..operations).map(op).collect();
    plan.schedule = (0..if has(5) { 4_097 } else { 30 }).map(|place| place % 3).collect();
    if has(3) {
        (plan.ops[3].thread, plan.ops[7].thread) = (200, 255);
    }
    if has(6) {
        (plan.schedule[2], plan.schedule[19]) = (201, 255);
    }
    let mut text = plan.text();
    if has(7) {
        text.extend(b"step\t00\n");
    }
    text
}

/// Fields of the small text below that hold a number.
const FIELDS: usize = 6;

/// Number of cases that put an odd number into a field.
pub fn count_odd_numbers() -> u64 {
    (damage::numbers().len() * FIELDS) as u64
}

/// A small run file with one odd number in one of its fields.
pub fn make_odd_number(case: u64) -> Vec<u8> {
    let numbers = damage::numbers();
    let mut fields: [&[u8]; FIELDS] = [b"2", b"1", b"1", b"-5", b"0", b"1"];
    fields[case as usize % FIELDS] = numbers[case as usize / FIELDS];
    let [threads, slots, putter, sample, taker, entry] = fields;
    [
        &[b"threads\t", threads, b"\nslots\t", slots, b"\nput\t", putter, b"\t", sample].concat()[..],
        &[b"\ntake\t", taker, b"\nstep\t", entry, b"\nstep\t0\n"].concat()[..],
    ]
    .concat()
}

/// A small run file, to be cut.
const WHOLE: &[u8] = b"threads\t2\nslots\t10\nput\t1\t-12\nput\t0\t0\ntake\t0\nstep\t0\nstep\t1\nput\t0\t5\n";

/// Number of cuts: after each byte, and none.
pub const CUTS: u64 = WHOLE.len() as u64 + 1;

/// The first bytes of the small run file. Its last line may not stand there.
pub fn make_cut(length: u64) -> Vec<u8> {
    WHOLE[..length as usize].to_vec()
}
