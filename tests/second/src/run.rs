//! One whole run (document 01, 'One step of one thread' and 'History, order, and what a run writes').
//!
//! `play` steps through the schedule and gives everything as owned lists; `run` adds the refusals 1 to 9 and fills the
//! lists that the caller lends.

pub mod order;
pub mod phase;
pub mod step;

use crate::fault::Fault;
use crate::rules::{self, Inputs, Refusal};
use phase::{Phase, Record};
use step::{Bench, Counts, Event};

/// The lists that a caller lends to a run.
pub struct Lent<'a> {
    pub event_code: &'a mut [u32],
    pub event_sample: &'a mut [i32],
    pub order: &'a mut [u32],
    pub slot_mark: &'a mut [u8],
    pub slot_sample: &'a mut [i32],
    pub record: &'a mut [Record],
}

/// What an accepted run gives besides the lent lists.
#[derive(Clone, Copy, Debug, PartialEq, Eq)]
pub struct Outcome {
    pub events: usize,
    pub ordered: usize,
    pub back: usize,
    pub counts: Counts,
}

/// A run played to its end. A slot is `None` when empty, so sample 0 needs no mark.
pub struct Played {
    pub back: usize,
    pub events: Vec<Event>,
    pub order: Vec<usize>,
    pub slots: Vec<Option<i32>>,
    pub phases: Vec<Phase>,
    pub counts: Counts,
}

/// Plays inputs that passed `rules::test_inputs`.
pub fn play(inputs: &Inputs, fault: Fault) -> Played {
    let mut bench = Bench::start(inputs, fault);
    for &entry in inputs.schedule {
        bench.step(usize::from(entry));
    }
    let sample_of = |put: usize| inputs.table.sample[put];
    Played {
        back: bench.back,
        order: order::list(&bench, fault),
        slots: (0..inputs.slots).map(|slot| bench.look(slot).map(sample_of)).collect(),
        phases: bench.threads.iter().map(|thread| thread.phase).collect(),
        counts: bench.counts,
        events: bench.events,
    }
}

/// The run: refusals 1 to 9, then the lent lists filled as far as the run has entries.
pub fn run(inputs: &Inputs, lent: &mut Lent) -> Result<Outcome, Refusal> {
    rules::test_inputs(inputs)?;
    let operations = inputs.table.len();
    rules::test_room(&[
        (lent.event_code.len(), 2 * operations),
        (lent.event_sample.len(), 2 * operations),
        (lent.order.len(), operations),
        (lent.slot_mark.len(), inputs.slots),
        (lent.slot_sample.len(), inputs.slots),
        (lent.record.len(), inputs.threads),
    ])?;
    let played = play(inputs, Fault::Nothing);
    fill(&played, lent);
    Ok(Outcome { events: played.events.len(), ordered: played.order.len(), back: played.back, counts: played.counts })
}

/// Copies a played run into lists that have room for it.
fn fill(played: &Played, lent: &mut Lent) {
    for (place, event) in played.events.iter().enumerate() {
        lent.event_code[place] = event.code as u32;
        lent.event_sample[place] = event.sample;
    }
    for (place, &op) in played.order.iter().enumerate() {
        lent.order[place] = op as u32;
    }
    for (place, slot) in played.slots.iter().enumerate() {
        lent.slot_mark[place] = u8::from(slot.is_some());
        lent.slot_sample[place] = slot.unwrap_or(0);
    }
    for (place, phase) in played.phases.iter().enumerate() {
        lent.record[place] = phase.record();
    }
}
