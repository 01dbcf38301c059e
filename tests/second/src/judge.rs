//! The judge of proposed orders (document 01, 'The judge'): refusals 1, 3, 4, 5, 10, then verdict 0 or 20 to 24.

use crate::rules::{self, demand, Refusal, Table, PUT};
use std::collections::VecDeque;

/// A history as lent: event codes and, beside them, event samples.
#[derive(Clone, Copy, Debug)]
pub struct History<'a> {
    pub code: &'a [u32],
    pub sample: &'a [i32],
}

/// Where the events of one operation stand, and what its return got.
#[derive(Clone, Copy, Default)]
struct Lived {
    called: Option<usize>,
    returned: Option<usize>,
    got: i32,
}

/// Verdict on a proposed order, or the lowest refusal that applies.
pub fn judge(threads: usize, table: &Table, history: &History, order: &[u32]) -> Result<u32, Refusal> {
    rules::test_threads(threads)?;
    rules::test_table_lengths(table)?;
    demand(history.code.len() == history.sample.len(), 3, 0)?;
    rules::test_operation_count(table)?;
    rules::test_operations(threads, table)?;
    let lived = follow(table, history)?;
    Ok(decide(table, &lived, order))
}

/// 10: walks the history; the detail is the lowest position whose event cannot stand.
fn follow(table: &Table, history: &History) -> Result<Vec<Lived>, Refusal> {
    let mut lived = vec![Lived::default(); table.len()];
    for (place, (&code, &sample)) in history.code.iter().zip(history.sample).enumerate() {
        let op = (code / 2) as usize;
        let is_call = code % 2 == 0;
        demand(op < table.len(), 10, place)?;
        if is_call {
            demand(can_call(table, &lived, op) && sample == 0, 10, place)?;
            lived[op].called = Some(place);
        } else {
            demand(lived[op].called.is_some() && lived[op].returned.is_none(), 10, place)?;
            demand(table.kind[op] != PUT || sample == 0, 10, place)?;
            lived[op].returned = Some(place);
            lived[op].got = sample;
        }
    }
    Ok(lived)
}

/// Not called yet, and every earlier operation of its thread has returned.
fn can_call(table: &Table, lived: &[Lived], op: usize) -> bool {
    let unfinished = |other: usize| table.thread[other] == table.thread[op] && lived[other].returned.is_none();
    lived[op].called.is_none() && !(0..op).any(unfinished)
}

/// The first of the verdicts 20 to 24 that holds of the whole order, else 0.
fn decide(table: &Table, lived: &[Lived], order: &[u32]) -> u32 {
    if !names_each_once(table.len(), order) {
        return 20;
    }
    let order: Vec<usize> = order.iter().map(|&op| op as usize).collect();
    if order.iter().any(|&op| lived[op].called.is_none()) {
        return 21;
    }
    if (0..table.len()).any(|op| lived[op].returned.is_some() && !order.contains(&op)) {
        return 22;
    }
    if turns_a_pair(lived, &order) {
        return 23;
    }
    if !fits_a_queue(table, lived, &order) {
        return 24;
    }
    0
}

/// Every entry is an operation number and none stands twice.
fn names_each_once(operations: usize, order: &[u32]) -> bool {
    let known = |op: u32| (op as usize) < operations;
    (0..order.len()).all(|place| known(order[place]) && !order[..place].contains(&order[place]))
}

/// Some B stands before some A that precedes it.
fn turns_a_pair(lived: &[Lived], order: &[usize]) -> bool {
    let precedes = |a: usize, b: usize| match (lived[a].returned, lived[b].called) {
        (Some(returned), Some(called)) => returned < called,
        _ => false,
    };
    (0..order.len()).any(|place| order[..place].iter().any(|&earlier| precedes(order[place], earlier)))
}

/// A plain queue that starts empty can do the operations in this order, each take with what it returned.
fn fits_a_queue(table: &Table, lived: &[Lived], order: &[usize]) -> bool {
    let mut queue = VecDeque::new();
    order.iter().all(|&op| {
        if table.kind[op] == PUT {
            queue.push_back(table.sample[op]);
            return true;
        }
        match queue.pop_front() {
            Some(front) => lived[op].returned.is_none() || lived[op].got == front,
            None => false,
        }
    })
}
