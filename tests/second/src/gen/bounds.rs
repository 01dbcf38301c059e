//! Every bound of document 01 at and one past, alone or several at once.

use super::damage;
use super::plan::{Op, Plan};
use super::prng::Prng;
use super::valid;

/// Number of different bounds that `break_bound` knows.
pub const BOUNDS: usize = 12;

/// A valid run with some bounds met or broken, as text.
pub fn draw(prng: &mut Prng, many: usize) -> Vec<u8> {
    let mut plan = valid::draw(prng);
    for _ in 0..many {
        let bound = prng.below(BOUNDS);
        break_bound(prng, &mut plan, bound);
    }
    plan.text()
}

/// Two to five bounds at once, sometimes with damage to the text on top.
pub fn draw_several(prng: &mut Prng) -> Vec<u8> {
    let many = prng.between(2, 5);
    let mut text = draw(prng, many);
    if prng.once_in(3) {
        damage::damage_once(prng, &mut text);
    }
    text
}

/// Takes one number of the plan to a bound, next to it, or past what a line may hold.
pub fn break_bound(prng: &mut Prng, plan: &mut Plan, bound: usize) {
    match bound {
        0 => plan.threads = prng.pick(&[0, 1, 2, 15, 16, 17, 18, 254, 255, 256, 257, 1_000]),
        1 => plan.slots = prng.pick(&[0, 1, 2, 63, 64, 65, 66, 254, 255, 256, 257, 65_536]),
        2 => {
            let many = prng.pick(&[0, 1, 127, 128, 129, 130, 200, 255, 256, 257, 1_000]);
            resize_operations(prng, plan, many);
        }
        3 | 4 => {
            let many = plan.slots.min(300) + prng.below(2);
            resize_puts(prng, plan, many);
        }
        5 => {
            let many = prng.pick(&[0, 1, 4_095, 4_096, 4_097, 4_098, 5_000]);
            resize_schedule(prng, plan, many);
        }
        6 | 7 => spoil_owner(prng, plan),
        8 | 9 => spoil_entry(prng, plan),
        _ => spoil_sample(prng, plan),
    }
}

/// A thread at or past the highest, or past what a line may hold.
fn edge_thread(prng: &mut Prng, threads: usize) -> usize {
    let last = threads.saturating_sub(1);
    prng.pick(&[last, threads, threads, threads, threads + 1, 16, 255, 256, 300])
}

/// Exactly this many operations; those added are takes, so that puts still fit.
fn resize_operations(prng: &mut Prng, plan: &mut Plan, many: usize) {
    plan.ops.truncate(many);
    while plan.ops.len() < many {
        let thread = prng.below(plan.threads.min(255));
        plan.ops.push(Op { thread, sample: None });
    }
}

/// Exactly this many puts: takes become puts first, then puts are added.
fn resize_puts(prng: &mut Prng, plan: &mut Plan, many: usize) {
    let mut puts = plan.puts();
    for op in &mut plan.ops {
        if puts < many && op.sample.is_none() {
            op.sample = Some(prng.below(3) as i64);
            puts += 1;
        }
    }
    for _ in puts..many {
        let thread = prng.below(plan.threads.min(255));
        plan.ops.push(Op { thread, sample: Some(5) });
    }
}

/// Exactly this many schedule entries.
fn resize_schedule(prng: &mut Prng, plan: &mut Plan, many: usize) {
    plan.schedule.truncate(many);
    while plan.schedule.len() < many {
        plan.schedule.push(prng.below(plan.threads.min(255)));
    }
}

/// Some operation gets a thread at or past the highest.
fn spoil_owner(prng: &mut Prng, plan: &mut Plan) {
    if !plan.ops.is_empty() {
        let op = prng.below(plan.ops.len());
        plan.ops[op].thread = edge_thread(prng, plan.threads);
    }
}

/// Some schedule entry names a thread at or past the highest.
fn spoil_entry(prng: &mut Prng, plan: &mut Plan) {
    if plan.schedule.is_empty() {
        plan.schedule.push(0);
    }
    let place = prng.below(plan.schedule.len());
    plan.schedule[place] = edge_thread(prng, plan.threads);
}

/// Some put gets a sample at or past the ends of 32 bits.
fn spoil_sample(prng: &mut Prng, plan: &mut Plan) {
    let ends = [2_147_483_647, 2_147_483_648, -2_147_483_648, -2_147_483_649, 4_294_967_296, i64::MIN, i64::MAX];
    let puts: Vec<usize> = (0..plan.ops.len()).filter(|&op| plan.ops[op].sample.is_some()).collect();
    if !puts.is_empty() {
        let op = prng.pick(&puts);
        plan.ops[op].sample = Some(prng.pick(&ends));
    }
}
