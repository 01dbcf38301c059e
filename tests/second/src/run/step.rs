//! One step of one thread (document 01, 'One step of one thread').
//!
//! A slot holds the number of the put that stored there, so operations with equal samples stay apart.

use super::phase::Phase;
use crate::fault::Fault;
use crate::rules::{Inputs, Table, PUT};
use std::collections::VecDeque;

/// An event: 2 × operation for a call, 2 × operation + 1 for a return; the sample is what a returned take got, else 0.
#[derive(Clone, Copy, Debug, PartialEq, Eq)]
pub struct Event {
    pub code: usize,
    pub sample: i32,
}

/// The six counts, defined over the schedule's steps.
#[derive(Clone, Copy, Debug, Default, PartialEq, Eq)]
pub struct Counts {
    pub steps: usize,
    pub idle: usize,
    pub stores: usize,
    pub swaps: usize,
    pub finds: usize,
    pub fruitless: usize,
}

/// A thread: its phase, the operation it works on, and its operations not yet called, in table order.
pub struct Thread {
    pub phase: Phase,
    pub current: usize,
    pub waiting: VecDeque<usize>,
}

/// The bench between two steps, with what the listed order needs to know of the past.
pub struct Bench<'a> {
    pub table: Table<'a>,
    pub threads: Vec<Thread>,
    pub back: usize,
    pub slots: Vec<Option<usize>>,
    pub events: Vec<Event>,
    /// (put, slot) in the order of storing.
    pub stored: Vec<(usize, usize)>,
    /// (take, put) in the order of the finding swaps.
    pub found: Vec<(usize, usize)>,
    pub counts: Counts,
    fault: Fault,
}

impl<'a> Bench<'a> {
    /// All threads rest, all slots are empty, the reservation count is 0.
    pub fn start(inputs: &Inputs<'a>, fault: Fault) -> Bench<'a> {
        let own = |thread: usize| {
            let table = inputs.table;
            (0..table.len()).filter(|&op| usize::from(table.thread[op]) == thread).collect()
        };
        let rest = |thread| Thread { phase: Phase::Rest, current: 0, waiting: own(thread) };
        Bench {
            table: inputs.table,
            threads: (0..inputs.threads).map(rest).collect(),
            back: 0,
            slots: vec![None; inputs.slots],
            events: Vec::new(),
            stored: Vec::new(),
            found: Vec::new(),
            counts: Counts::default(),
            fault,
        }
    }

    /// One step of the thread `who`.
    pub fn step(&mut self, who: usize) {
        self.counts.steps += 1;
        let next = match self.threads[who].phase {
            Phase::Rest => self.call(who),
            Phase::CalledPut => self.reserve(),
            Phase::Reserved { slot } => self.store(who, slot),
            Phase::Stored => self.give_back(who, 0),
            Phase::CalledTake => self.begin_pass(),
            Phase::Scanning { slot, end } => self.swap(who, slot, end),
            Phase::Holding { sample } => self.give_back(who, sample),
        };
        self.threads[who].phase = next;
    }

    /// Phase 0: a call event, or an idle step when no operation is left.
    fn call(&mut self, who: usize) -> Phase {
        let Some(op) = self.threads[who].waiting.pop_front() else {
            self.counts.idle += 1;
            return Phase::Rest;
        };
        self.threads[who].current = op;
        self.events.push(Event { code: 2 * op, sample: 0 });
        if self.table.kind[op] == PUT {
            Phase::CalledPut
        } else {
            Phase::CalledTake
        }
    }

    /// Phase 1: the reservation count becomes the put's slot and is raised by 1.
    fn reserve(&mut self) -> Phase {
        let slot = self.back;
        self.back += 1;
        Phase::Reserved { slot }
    }

    /// Phase 2: the sample goes into the reserved slot.
    fn store(&mut self, who: usize, slot: usize) -> Phase {
        let put = self.threads[who].current;
        self.counts.stores += 1;
        self.slots[slot] = Some(put);
        self.stored.push((put, slot));
        Phase::Stored
    }

    /// Phases 3 and 6: a return event, with the sample that a take got or 0 for a put.
    fn give_back(&mut self, who: usize, sample: i32) -> Phase {
        let op = self.threads[who].current;
        self.events.push(Event { code: 2 * op + 1, sample });
        if self.fault == Fault::EmptyLater {
            self.empty_what_was_found(op);
        }
        Phase::Rest
    }

    /// Phase 4: reads the reservation count; with 0 the take stays, else a pass begins.
    fn begin_pass(&mut self) -> Phase {
        match self.back {
            0 => Phase::CalledTake,
            end => Phase::Scanning { slot: 0, end },
        }
    }

    /// Phase 5: empties the slot and looks at what it held, in one action.
    fn swap(&mut self, who: usize, slot: usize, end: usize) -> Phase {
        let end = if self.fault == Fault::CountAgain { self.back } else { end };
        self.counts.swaps += 1;
        let held = self.look(slot);
        if self.fault != Fault::EmptyLater {
            self.slots[slot] = None;
        }
        match held {
            Some(put) => self.find(who, put),
            None if slot + 1 < end => Phase::Scanning { slot: slot + 1, end },
            None => {
                self.counts.fruitless += 1;
                Phase::CalledTake
            }
        }
    }

    /// The take of thread `who` found what `put` stored.
    fn find(&mut self, who: usize, put: usize) -> Phase {
        self.counts.finds += 1;
        let known = if self.fault == Fault::TellBySample { self.first_alike(put) } else { put };
        self.found.push((self.threads[who].current, known));
        Phase::Holding { sample: self.table.sample[put] }
    }

    /// The put whose sample the slot holds.
    pub fn look(&self, slot: usize) -> Option<usize> {
        let takes_zero_for_empty = self.fault == Fault::ZeroIsEmpty;
        self.slots[slot].filter(|&put| !(takes_zero_for_empty && self.table.sample[put] == 0))
    }

    /// Planted fault `TellBySample`: the lowest stored put, not yet found, with the sample of `put`.
    fn first_alike(&self, put: usize) -> usize {
        let is_found = |other: usize| self.found.iter().any(|&(_, known)| known == other);
        let alike = |other: usize| self.table.sample[other] == self.table.sample[put];
        let stored = self.stored.iter().map(|&(other, _)| other);
        stored.filter(|&other| alike(other) && !is_found(other)).min().unwrap_or(put)
    }

    /// Planted fault `EmptyLater`: empties the slot that the take `op` read.
    fn empty_what_was_found(&mut self, op: usize) {
        let read = self.found.iter().find(|&&(take, _)| take == op).map(|&(_, put)| put);
        for slot in &mut self.slots {
            if slot.is_some() && *slot == read {
                *slot = None;
            }
        }
    }
}
