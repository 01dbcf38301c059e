//! Linearization by search, for small histories, from the definition in source document 002, section 2.1.
//!
//! A completion of a history removes some pending calls and adds returns at the end for the others. A linearization is
//! a legal sequential history that is a permutation of some completion and keeps its precedence. Legal means: a plain
//! queue that starts empty does it, and no take answers 'empty'. Nothing here uses the judge.

use crate::rules::{Table, PUT};
use std::collections::VecDeque;

/// An event of a history: the call of an operation, or its return with a sample (0 for a put).
#[derive(Clone, Copy, Debug, PartialEq, Eq, PartialOrd, Ord)]
pub enum Event {
    Call(usize),
    Return(usize, i32),
}

/// The history that event codes and samples stand for.
pub fn events_of(code: &[u32], sample: &[i32]) -> Vec<Event> {
    let event = |(&code, &sample): (&u32, &i32)| match code % 2 {
        0 => Event::Call((code / 2) as usize),
        _ => Event::Return((code / 2) as usize, sample),
    };
    code.iter().zip(sample).map(event).collect()
}

/// Some order of some of its operations is a linearization of the history.
pub fn any_linearizes(table: &Table, history: &[Event]) -> bool {
    completions(table, history).iter().any(|complete| {
        let operations = called_in(complete);
        permutations(&operations).iter().any(|order| is_linearization(table, complete, order))
    })
}

/// The operations done one after another in this order are a linearization of the history.
pub fn this_linearizes(table: &Table, history: &[Event], order: &[usize]) -> bool {
    completions(table, history).iter().any(|complete| is_linearization(table, complete, order))
}

/// All completions: each pending call is removed, or answered at the end. A take may be answered with any sample of
/// the table: no other could be legal.
fn completions(table: &Table, history: &[Event]) -> Vec<Vec<Event>> {
    let mut done = vec![history.to_vec()];
    for op in called_in(history) {
        if return_of(history, op).is_some() {
            continue;
        }
        let answers = if table.kind[op] == PUT { vec![0] } else { put_samples(table) };
        let mut more = Vec::new();
        for partial in &done {
            more.push(partial.iter().copied().filter(|&event| event != Event::Call(op)).collect());
            for &answer in &answers {
                let mut answered = partial.clone();
                answered.push(Event::Return(op, answer));
                more.push(answered);
            }
        }
        done = more;
    }
    done
}

/// The different samples that the table's puts have.
fn put_samples(table: &Table) -> Vec<i32> {
    let puts = (0..table.len()).filter(|&op| table.kind[op] == PUT);
    let mut samples: Vec<i32> = puts.map(|op| table.sample[op]).collect();
    samples.sort_unstable();
    samples.dedup();
    samples
}

/// Doing the operations in this order is a permutation of the complete history, keeps its precedence, and is legal.
fn is_linearization(table: &Table, complete: &[Event], order: &[usize]) -> bool {
    let mut sequential = Vec::new();
    for &op in order {
        let Some(answer) = return_of(complete, op) else { return false };
        sequential.push(Event::Call(op));
        sequential.push(Event::Return(op, answer));
    }
    is_permutation(&sequential, complete) && keeps_precedence(complete, &sequential) && is_legal(table, &sequential)
}

/// The two histories have the same events, each as often.
fn is_permutation(left: &[Event], right: &[Event]) -> bool {
    let (mut left, mut right) = (left.to_vec(), right.to_vec());
    left.sort_unstable();
    right.sort_unstable();
    left == right
}

/// Whatever precedes in the complete history precedes in the sequential one.
fn keeps_precedence(complete: &[Event], sequential: &[Event]) -> bool {
    let operations = called_in(complete);
    let kept = |a: usize, b: usize| !precedes(complete, a, b) || precedes(sequential, a, b);
    operations.iter().all(|&a| operations.iter().all(|&b| kept(a, b)))
}

/// The return event of `a` stands before the call event of `b`.
fn precedes(history: &[Event], a: usize, b: usize) -> bool {
    let returned = history.iter().position(|event| matches!(event, Event::Return(op, _) if *op == a));
    let called = history.iter().position(|event| *event == Event::Call(b));
    matches!((returned, called), (Some(returned), Some(called)) if returned < called)
}

/// A plain queue that starts empty gives these answers.
fn is_legal(table: &Table, sequential: &[Event]) -> bool {
    let mut queue = VecDeque::new();
    sequential.iter().all(|event| match *event {
        Event::Call(op) => {
            if table.kind[op] == PUT {
                queue.push_back(table.sample[op]);
            }
            true
        }
        Event::Return(op, answer) => table.kind[op] == PUT || queue.pop_front() == Some(answer),
    })
}

/// The operations that the history calls, in the order of their calls.
fn called_in(history: &[Event]) -> Vec<usize> {
    let call = |event: &Event| match *event {
        Event::Call(op) => Some(op),
        Event::Return(..) => None,
    };
    history.iter().filter_map(call).collect()
}

/// What the operation's return event answers, if it has one.
fn return_of(history: &[Event], wanted: usize) -> Option<i32> {
    let answer = |event: &Event| match *event {
        Event::Return(op, answer) if op == wanted => Some(answer),
        _ => None,
    };
    history.iter().find_map(answer)
}

/// All orders of these operations.
pub fn permutations(operations: &[usize]) -> Vec<Vec<usize>> {
    if operations.is_empty() {
        return vec![Vec::new()];
    }
    let mut all = Vec::new();
    for (place, &first) in operations.iter().enumerate() {
        let mut rest = operations.to_vec();
        rest.remove(place);
        for tail in permutations(&rest) {
            all.push([vec![first], tail].concat());
        }
    }
    all
}
