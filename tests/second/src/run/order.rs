//! The listed order (document 01, 'History, order, and what a run writes').

use super::step::{Bench, Event};
use crate::fault::Fault;

/// The listed order of the bench as it stands.
pub fn list(bench: &Bench, fault: Fault) -> Vec<usize> {
    let row = put_row(bench, fault);
    let mut order = Vec::new();
    let mut standing = 0;
    for &(take, put) in &bench.found {
        let up_to_found = row.iter().position(|&other| other == put).map_or(0, |place| place + 1);
        let up_to_preceding =
            row.iter().rposition(|&other| precedes(&bench.events, other, take)).map_or(0, |place| place + 1);
        let upto = up_to_found.max(up_to_preceding).max(standing);
        order.extend(&row[standing..upto]);
        order.push(take);
        standing = upto;
    }
    order.extend(&row[standing..]);
    if fault == Fault::ReturnedOnly {
        order.retain(|&op| place_of(&bench.events, 2 * op + 1).is_some());
    }
    order
}

/// The row of puts: those found, in the order in which they were found; then the other stored ones by rising slot.
fn put_row(bench: &Bench, fault: Fault) -> Vec<usize> {
    let mut by_slot = bench.stored.clone();
    by_slot.sort_by_key(|&(_, slot)| slot);
    let mut row = Vec::new();
    match fault {
        Fault::OrderByReservation => {}
        Fault::OrderByStoring => row.extend(bench.stored.iter().map(|&(put, _)| put)),
        _ => row.extend(bench.found.iter().map(|&(_, put)| put)),
    }
    row.extend(by_slot.iter().map(|&(put, _)| put));
    keep_first(row)
}

/// The row with each put only where it stands first.
fn keep_first(row: Vec<usize>) -> Vec<usize> {
    let mut kept = Vec::new();
    for put in row {
        if !kept.contains(&put) {
            kept.push(put);
        }
    }
    kept
}

/// `first` precedes `second`: its return event is earlier than the other's call event.
fn precedes(events: &[Event], first: usize, second: usize) -> bool {
    match (place_of(events, 2 * first + 1), place_of(events, 2 * second)) {
        (Some(returned), Some(called)) => returned < called,
        _ => false,
    }
}

/// Where the event of this code stands in the history.
fn place_of(events: &[Event], code: usize) -> Option<usize> {
    events.iter().position(|event| event.code == code)
}
