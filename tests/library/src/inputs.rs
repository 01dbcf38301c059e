//! Inputs of runs: valid ones, and such with bounds met or broken, one or several at once. Refusals 3 and 5 are reached
//! in ways that no run file has: lists of different lengths, odd kinds, takes with a sample.

use second::gen::{make_valid, prng::Prng};
use second::rules::{MOST_OPERATIONS, MOST_STEPS, PUT, TAKE};
use second::runfile::Lists;

/// Numbers of threads and of slots at and past their bounds; some are small once cut to 8, 16 or 32 bits.
const SIZES: [usize; 14] = [0, 1, 15, 16, 17, 63, 64, 65, 255, 256, 257, 65_537, (1 << 32) + 2, usize::MAX];

/// Inputs of a run: two of three are valid.
pub fn draw(prng: &mut Prng) -> Lists {
    let mut lists = draw_valid(prng);
    match prng.below(12) {
        0..=7 => {}
        8..=10 => spoil_any(prng, &mut lists),
        _ => (0..prng.between(2, 5)).for_each(|_| spoil_any(prng, &mut lists)),
    }
    lists
}

/// Inputs that pass.
pub fn draw_valid(prng: &mut Prng) -> Lists {
    make_valid(prng.next_word(), 0)
}

/// Meets or breaks one bound of a run.
fn spoil_any(prng: &mut Prng, lists: &mut Lists) {
    match prng.below(8) {
        0 => lists.slots = prng.pick(&SIZES),
        1 => put_at_the_bound(prng, lists),
        2 => {
            let steps = prng.pick(&[0, MOST_STEPS - 1, MOST_STEPS, MOST_STEPS + 1, 5_000]);
            lists.schedule.resize(steps, 0);
        }
        3 if !lists.schedule.is_empty() => {
            let place = prng.below(lists.schedule.len());
            lists.schedule[place] = edge_thread(prng, lists.threads);
        }
        _ => spoil_table(prng, lists),
    }
}

/// Meets or breaks one bound that the judge tests too: of the threads or of the table.
pub fn spoil_table(prng: &mut Prng, lists: &mut Lists) {
    match prng.below(5) {
        0 => lists.threads = prng.pick(&SIZES),
        1 => part_lengths(prng, lists),
        2 => {
            let operations = prng.pick(&[0, 1, MOST_OPERATIONS - 1, MOST_OPERATIONS, MOST_OPERATIONS + 1, 256, 300]);
            lists.thread.resize(operations, 0);
            lists.kind.resize(operations, TAKE);
            lists.sample.resize(operations, 0);
        }
        _ => spoil_operation(prng, lists),
    }
}

/// One of the three operation lists gets another length.
fn part_lengths(prng: &mut Prng, lists: &mut Lists) {
    let length = prng.pick(&[0, lists.kind.len().saturating_sub(1), lists.kind.len() + 1, 129, 1_000]);
    match prng.below(3) {
        0 => lists.thread.resize(length, 0),
        1 => lists.kind.resize(length, TAKE),
        _ => lists.sample.resize(length, 0),
    }
}

/// Some operation gets a thread at or past the highest, another kind, or a sample.
fn spoil_operation(prng: &mut Prng, lists: &mut Lists) {
    let operations = lists.kind.len().min(lists.thread.len()).min(lists.sample.len());
    if operations == 0 {
        return;
    }
    let op = prng.below(operations);
    match prng.below(3) {
        0 => lists.thread[op] = edge_thread(prng, lists.threads),
        1 => lists.kind[op] = prng.pick(&[0, 1, 2, 3, 4, 128, 255]),
        _ => lists.sample[op] = prng.pick(&[1, -1, 256, 65_536, i32::MIN, i32::MAX]),
    }
}

/// As many puts as slots, or one more: takes become puts, then puts are added.
fn put_at_the_bound(prng: &mut Prng, lists: &mut Lists) {
    let wanted = lists.slots.min(MOST_OPERATIONS) + prng.below(2);
    let mut puts = lists.kind.iter().filter(|&&kind| kind == PUT).count();
    for kind in &mut lists.kind {
        if puts < wanted && *kind == TAKE {
            *kind = PUT;
            puts += 1;
        }
    }
    for _ in puts..wanted {
        lists.thread.push(0);
        lists.kind.push(PUT);
        lists.sample.push(5);
    }
}

/// A thread at or past the highest.
fn edge_thread(prng: &mut Prng, threads: usize) -> u8 {
    let highest = threads.min(254) as u8;
    prng.pick(&[highest.saturating_sub(1), highest, highest, highest + 1, 16, 128, 255])
}
