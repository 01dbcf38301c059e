//! Valid runs of every size up to the bounds of document 01.

use super::plan::{Op, Plan};
use super::prng::Prng;
use super::schedule;

/// A valid run: mostly small ones, since small runs show most faults, and some up to every bound.
pub fn draw(prng: &mut Prng) -> Plan {
    let (threads, slots, operations, steps) = match prng.below(20) {
        0..=8 => (prng.between(1, 4), prng.between(1, 4), prng.below(8), prng.below(50)),
        9..=13 => (prng.between(2, 6), prng.between(1, 12), prng.between(2, 24), prng.between(20, 200)),
        14..=17 => (prng.between(1, 16), prng.between(1, 64), prng.below(129), prng.below(1_200)),
        18 => (prng.between(4, 16), prng.between(20, 64), prng.between(64, 128), prng.between(1_000, 4_096)),
        _ => (16, 64, 128, 4_096),
    };
    draw_sized(prng, threads, slots, operations, steps)
}

/// A valid run with exactly these sizes.
pub fn draw_sized(prng: &mut Prng, threads: usize, slots: usize, operations: usize, steps: usize) -> Plan {
    let puts = draw_puts(prng, slots, operations);
    let mut ops = draw_owners(prng, threads, operations, puts);
    let style = prng.below(6);
    let wide = prng.next_word() as i64;
    for (number, op) in ops.iter_mut().enumerate() {
        op.sample = op.sample.map(|_| draw_sample(prng, style, wide, number));
    }
    Plan { threads, slots, ops, schedule: schedule::draw(prng, threads, steps) }
}

/// How many of the operations put: about half, or any number, or as many as fit.
fn draw_puts(prng: &mut Prng, slots: usize, operations: usize) -> usize {
    let most = slots.min(operations);
    match prng.below(4) {
        0 => prng.between(0, most),
        1 => most,
        _ => most.min(operations.div_ceil(2)),
    }
}

/// Operations with their threads; puts have sample 0 for now. Each thread does both kinds, or only one, or the first
/// operations put and the others take.
fn draw_owners(prng: &mut Prng, threads: usize, operations: usize, puts: usize) -> Vec<Op> {
    let mut is_put: Vec<bool> = (0..operations).map(|op| op < puts).collect();
    if !prng.once_in(4) {
        prng.shuffle(&mut is_put);
    }
    let parted = threads > 1 && prng.once_in(2);
    let putters = prng.between(1, threads.max(2) - 1);
    let owner = |&put: &bool| {
        let thread = match (parted, put) {
            (false, _) => prng.below(threads),
            (true, true) => prng.below(putters),
            (true, false) => prng.between(putters, threads - 1),
        };
        Op { thread, sample: put.then_some(0) }
    };
    is_put.iter().map(owner).collect()
}

/// A sample in one of several styles: many equal ones, zeros, the ends of 32 bits, all different, any.
fn draw_sample(prng: &mut Prng, style: usize, wide: i64, number: usize) -> i64 {
    match style {
        0 => i64::from(wide as i32),
        1 => prng.below(2) as i64,
        2 => prng.pick(&[0, 0, 7, -7, i64::from(i32::MIN), i64::from(i32::MAX)]),
        3 => 100 + number as i64,
        4 => prng.below(3) as i64 - 1,
        _ => i64::from(prng.next_word() as i32),
    }
}
