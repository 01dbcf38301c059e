//! Small random histories and proposed orders for the judge, not made by a bench: anyone may propose.

use super::prng::Prng;
use crate::rules::{Table, PUT, TAKE};

/// A table, a history that can stand, and a proposed order.
pub struct Proposal {
    pub threads: usize,
    pub thread: Vec<u8>,
    pub kind: Vec<u8>,
    pub sample: Vec<i32>,
    pub code: Vec<u32>,
    pub event_sample: Vec<i32>,
    pub order: Vec<u32>,
}

impl Proposal {
    pub fn table(&self) -> Table<'_> {
        Table { thread: &self.thread, kind: &self.kind, sample: &self.sample }
    }
}

/// A proposal over at most `most` operations. Samples come from a few, so takes often return a put's sample.
pub fn draw(prng: &mut Prng, most: usize) -> Proposal {
    let threads = prng.between(1, 3);
    let operations = prng.between(0, most);
    let kinds: Vec<u8> = (0..operations).map(|_| prng.pick(&[PUT, PUT, TAKE])).collect();
    let few = prng.between(1, 3);
    let mut proposal = Proposal {
        threads,
        thread: (0..operations).map(|_| prng.below(threads) as u8).collect(),
        sample: kinds.iter().map(|&kind| if kind == PUT { prng.below(few) as i32 } else { 0 }).collect(),
        kind: kinds,
        code: Vec::new(),
        event_sample: Vec::new(),
        order: Vec::new(),
    };
    draw_history(prng, &mut proposal, few);
    draw_order(prng, &mut proposal);
    proposal
}

/// Threads go on in random order: each calls its next operation or returns the one it is in.
fn draw_history(prng: &mut Prng, proposal: &mut Proposal, few: usize) {
    let mut next: Vec<Vec<u32>> = vec![Vec::new(); proposal.threads];
    for (op, &thread) in proposal.thread.iter().enumerate() {
        next[usize::from(thread)].extend([2 * op as u32, 2 * op as u32 + 1]);
    }
    let moves = prng.below(2 * proposal.kind.len() + 3);
    for _ in 0..moves {
        let thread = prng.below(proposal.threads);
        if next[thread].is_empty() {
            continue;
        }
        let code = next[thread].remove(0);
        let returns_take = code % 2 == 1 && proposal.kind[(code / 2) as usize] == TAKE;
        proposal.code.push(code);
        proposal.event_sample.push(if returns_take { prng.below(few) as i32 } else { 0 });
    }
}

/// An order of all returned operations and some called ones, a little out of the order of the events; sometimes with
/// an entry missing, doubled, uncalled or too high.
fn draw_order(prng: &mut Prng, proposal: &mut Proposal) {
    let by_return = prng.once_in(2);
    let returned = |op: u32| proposal.code.contains(&(2 * op + 1));
    let mut order: Vec<u32> = Vec::new();
    for &code in &proposal.code {
        let op = code / 2;
        let stands = if returned(op) { code % 2 == u32::from(by_return) } else { prng.once_in(2) };
        if stands {
            order.push(op);
        }
    }
    if order.len() > 1 {
        for _ in 0..prng.below(3) {
            let place = prng.below(order.len() - 1);
            order.swap(place, place + 1);
        }
    }
    match prng.below(12) {
        0 => order.truncate(order.len().saturating_sub(1)),
        1 => order.push(prng.below(proposal.kind.len() + 2) as u32),
        2 => prng.shuffle(&mut order),
        _ => {}
    }
    proposal.order = order;
}
