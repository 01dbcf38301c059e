//! Proposals for the judge: a table, a history and an order, from a run or drawn by themselves, and then changed.

use crate::inputs;
use second::fault::Fault;
use second::gen::{history, prng::Prng};
use second::rules::{self, Inputs};
use second::run::play;
use second::runfile::Lists;

/// Most operations that a proposal has for the search to be tried on it.
pub const FEW: usize = 5;

/// What the judge gets, with the library's widths. Slots and schedule of `lists` are not used.
#[derive(Debug)]
pub struct Proposal {
    pub lists: Lists,
    pub codes: Vec<u16>,
    pub samples: Vec<i32>,
    pub order: Vec<u8>,
}

/// A proposal from these inputs, if they pass, with some changes.
pub fn from_run(prng: &mut Prng, inputs: &Inputs) -> Option<Proposal> {
    rules::test_inputs(inputs).ok()?;
    let played = play(inputs, Fault::Nothing);
    let table = inputs.table;
    let mut proposal = Proposal {
        lists: Lists {
            threads: inputs.threads,
            thread: table.thread.to_vec(),
            kind: table.kind.to_vec(),
            sample: table.sample.to_vec(),
            ..Lists::default()
        },
        codes: played.events.iter().map(|event| event.code as u16).collect(),
        samples: played.events.iter().map(|event| event.sample).collect(),
        order: played.order.iter().map(|&op| op as u8).collect(),
    };
    if prng.once_in(3) {
        cut(prng, &mut proposal);
    }
    change(prng, &mut proposal);
    Some(proposal)
}

/// A small proposal that no bench made, with some changes.
pub fn draw_small(prng: &mut Prng) -> Proposal {
    let drawn = history::draw(prng, FEW);
    let lists = Lists {
        threads: drawn.threads,
        thread: drawn.thread,
        kind: drawn.kind,
        sample: drawn.sample,
        ..Lists::default()
    };
    let codes = drawn.code.iter().map(|&code| code as u16).collect();
    let order = drawn.order.iter().map(|&op| op as u8).collect();
    let mut proposal = Proposal { lists, codes, samples: drawn.event_sample, order };
    if prng.once_in(3) {
        change(prng, &mut proposal);
    }
    proposal
}

/// Only the first events stay, and of the order the operations that they call.
fn cut(prng: &mut Prng, proposal: &mut Proposal) {
    let length = prng.below(proposal.codes.len() + 1);
    proposal.codes.truncate(length);
    proposal.samples.truncate(length);
    let codes = &proposal.codes;
    proposal.order.retain(|&op| codes.contains(&(2 * u16::from(op))));
}

/// Changes the history, the order, both or neither; now and then the table.
fn change(prng: &mut Prng, proposal: &mut Proposal) {
    if prng.once_in(3) {
        change_history(prng, proposal);
    }
    if !prng.once_in(3) {
        change_order(prng, proposal);
    }
    if prng.once_in(8) {
        (0..prng.pick(&[1, 1, 3])).for_each(|_| inputs::spoil_table(prng, &mut proposal.lists));
    }
}

/// One event changed, moved, dropped or doubled, or another sample beside one; or one list longer than the other.
fn change_history(prng: &mut Prng, proposal: &mut Proposal) {
    let Proposal { lists, codes, samples, .. } = proposal;
    let (from, to) = (prng.below(codes.len()), prng.below(codes.len()));
    match prng.below(10) {
        0 => samples.push(0),
        1 => codes.push(prng.below(2 * lists.kind.len() + 2) as u16),
        _ if codes.is_empty() => {}
        2 => codes[from] = prng.below(2 * lists.kind.len() + 2) as u16,
        3 => codes[from] = prng.next_word() as u16,
        4 => {
            let (code, sample) = (codes.remove(from), samples.remove(from));
            codes.insert(to, code);
            samples.insert(to, sample);
        }
        5 => {
            codes.remove(from);
            samples.remove(from);
        }
        6 => {
            codes.insert(to, codes[from]);
            samples.insert(to, samples[from]);
        }
        7 => samples[from] = prng.next_word() as i32,
        _ => change_got(prng, proposal),
    }
}

/// Some take's return gets the sample of some operation.
fn change_got(prng: &mut Prng, proposal: &mut Proposal) {
    let Proposal { lists, codes, samples, .. } = proposal;
    let got = |at: &usize| codes[*at] % 2 == 1 && lists.kind[usize::from(codes[*at] / 2)] == rules::TAKE;
    let returns: Vec<usize> = (0..codes.len()).filter(got).collect();
    if !returns.is_empty() {
        samples[prng.pick(&returns)] = prng.pick(&lists.sample);
    }
}

/// Entries swapped, dropped, doubled or changed; or another permutation; or a long order.
fn change_order(prng: &mut Prng, proposal: &mut Proposal) {
    let (operations, order) = (proposal.lists.kind.len(), &mut proposal.order);
    let (from, to) = (prng.below(order.len()), prng.below(order.len()));
    match prng.below(11) {
        0 => order.clear(),
        1 => order.push(prng.below(operations + 2) as u8),
        2 => order.push(prng.pick(&[128, 200, 255])),
        3 => order.extend([7; 300]),
        _ if order.is_empty() => {}
        4 => prng.shuffle(order),
        5 => {
            order.remove(from);
        }
        6 => order.insert(to, order[from]),
        7 => order[from] = prng.below(operations + 1) as u8,
        8 => order.swap(from, to),
        _ if from > 0 => order.swap(from - 1, from),
        _ => {}
    }
}
