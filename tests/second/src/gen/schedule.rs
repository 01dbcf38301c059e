//! Interleavings: even ones, bursts, threads that stall and come back, threads that stall for good.

use super::prng::Prng;

/// A schedule of this length over these threads.
pub fn draw(prng: &mut Prng, threads: usize, length: usize) -> Vec<usize> {
    let mut schedule = Vec::with_capacity(length + threads * 2);
    if prng.once_in(3) {
        open(prng, threads, &mut schedule);
    }
    match prng.below(6) {
        0 => (0..length).for_each(|place| schedule.push(place % threads)),
        1 => (0..length).for_each(|_| schedule.push(prng.below(threads))),
        2 => one_after_another(prng, threads, length, &mut schedule),
        _ => stalling(prng, threads, length, &mut schedule),
    }
    schedule.truncate(length);
    schedule
}

/// Some threads make their first one to three steps, so that puts have reserved but not stored, or stored but not
/// returned, when the others begin.
fn open(prng: &mut Prng, threads: usize, schedule: &mut Vec<usize>) {
    let mut all: Vec<usize> = (0..threads).collect();
    prng.shuffle(&mut all);
    let some = prng.between(1, threads);
    for &thread in &all[..some] {
        let steps = prng.between(1, 3);
        schedule.extend(std::iter::repeat_n(thread, steps));
    }
}

/// Long stretches of one thread alone.
fn one_after_another(prng: &mut Prng, threads: usize, length: usize, schedule: &mut Vec<usize>) {
    while schedule.len() < length {
        let thread = prng.below(threads);
        let stretch = prng.between(1, 40);
        schedule.extend(std::iter::repeat_n(thread, stretch));
    }
}

/// Each thread has a weight; the weights are drawn anew now and then, and a weight of 0 is a stall.
fn stalling(prng: &mut Prng, threads: usize, length: usize, schedule: &mut Vec<usize>) {
    let longest_burst = prng.pick(&[1, 1, 2, 4, 9]);
    while schedule.len() < length {
        let weights: Vec<usize> = (0..threads).map(|_| prng.pick(&[0, 0, 1, 1, 4, 16])).collect();
        let tickets: Vec<usize> =
            (0..threads).flat_map(|thread| std::iter::repeat_n(thread, weights[thread])).collect();
        let spell = if prng.once_in(8) { length } else { prng.between(1, 60) };
        for _ in 0..spell {
            let thread = if tickets.is_empty() { prng.below(threads) } else { prng.pick(&tickets) };
            let burst = prng.between(1, longest_burst);
            schedule.extend(std::iter::repeat_n(thread, burst));
        }
    }
}
