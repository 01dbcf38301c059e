//! The stepping and the listed order, on fixed arrays (document 01, 'One step of one thread' and 'History, order').

use super::parse::Parsed;

/// No operation, no put in a slot, or no event.
pub const NONE: u8 = 255;
const NEVER: u16 = u16::MAX;

/// Phase codes as document 01 numbers them.
pub const REST: u8 = 0;
pub const CALLED_PUT: u8 = 1;
pub const RESERVED: u8 = 2;
pub const STORED: u8 = 3;
pub const CALLED_TAKE: u8 = 4;
pub const SCANNING: u8 = 5;
pub const HOLDING: u8 = 6;

/// One thread: `slot` counts in phases 2 and 5, `end` in phase 5, `sample` in phase 6; `next` is its next call.
#[derive(Clone, Copy)]
pub struct Thread {
    pub phase: u8,
    pub slot: u8,
    end: u8,
    op: u8,
    next: u8,
    pub sample: i32,
}

pub struct Machine {
    pub threads: [Thread; 16],
    /// The put in each slot, or `NONE`.
    pub slots: [u8; 64],
    pub back: u8,
    pub event_code: [u8; 256],
    pub event_sample: [i32; 256],
    pub events: usize,
    pub order: [u8; 128],
    pub ordered: usize,
    pub idle: usize,
    pub stores: usize,
    pub swaps: usize,
    pub finds: usize,
    pub fruitless: usize,
    /// The operation that the same thread calls after this one.
    follower: [u8; 128],
    call_at: [u16; 128],
    return_at: [u16; 128],
    found_take: [u8; 64],
    /// The row of puts; the found ones come first.
    row: [u8; 64],
}

impl Machine {
    pub fn new(parsed: &Parsed) -> Machine {
        let thread = Thread { phase: REST, slot: 0, end: 0, op: NONE, next: NONE, sample: 0 };
        let mut machine = Machine {
            threads: [thread; 16],
            slots: [NONE; 64],
            back: 0,
            event_code: [0; 256],
            event_sample: [0; 256],
            events: 0,
            order: [0; 128],
            ordered: 0,
            idle: 0,
            stores: 0,
            swaps: 0,
            finds: 0,
            fruitless: 0,
            follower: [NONE; 128],
            call_at: [NEVER; 128],
            return_at: [NEVER; 128],
            found_take: [0; 64],
            row: [0; 64],
        };
        for op in (0..parsed.operations).rev() {
            let owner = &mut machine.threads[usize::from(parsed.thread[op])];
            machine.follower[op] = owner.next;
            owner.next = op as u8;
        }
        machine
    }

    /// The whole schedule, then the listed order.
    pub fn play(&mut self, parsed: &Parsed) {
        for &who in &parsed.schedule[..parsed.steps] {
            self.step(parsed, usize::from(who) & 15);
        }
        self.list();
    }

    #[inline]
    fn step(&mut self, parsed: &Parsed, who: usize) {
        let mut thread = self.threads[who];
        match thread.phase {
            SCANNING => self.swap(parsed, &mut thread),
            REST if thread.next == NONE => self.idle += 1,
            REST => {
                let op = usize::from(thread.next);
                (thread.op, thread.next) = (thread.next, self.follower[op]);
                thread.phase = if parsed.is_put[op] { CALLED_PUT } else { CALLED_TAKE };
                self.call_at[op] = self.events as u16;
                self.event(2 * op, 0);
            }
            CALLED_PUT => {
                (thread.phase, thread.slot) = (RESERVED, self.back);
                self.back += 1;
            }
            RESERVED => {
                self.slots[usize::from(thread.slot)] = thread.op;
                self.stores += 1;
                thread.phase = STORED;
            }
            CALLED_TAKE if self.back == 0 => {}
            CALLED_TAKE => (thread.phase, thread.slot, thread.end) = (SCANNING, 0, self.back),
            _ => {
                let op = usize::from(thread.op);
                let sample = if thread.phase == HOLDING { thread.sample } else { 0 };
                self.return_at[op] = self.events as u16;
                self.event(2 * op + 1, sample);
                thread.phase = REST;
            }
        }
        self.threads[who] = thread;
    }

    #[inline]
    fn swap(&mut self, parsed: &Parsed, thread: &mut Thread) {
        self.swaps += 1;
        let held = std::mem::replace(&mut self.slots[usize::from(thread.slot)], NONE);
        if held != NONE {
            self.row[self.finds] = held;
            self.found_take[self.finds] = thread.op;
            self.finds += 1;
            (thread.phase, thread.sample) = (HOLDING, parsed.sample[usize::from(held)]);
        } else if thread.slot + 1 < thread.end {
            thread.slot += 1;
        } else {
            self.fruitless += 1;
            thread.phase = CALLED_TAKE;
        }
    }

    #[inline]
    fn event(&mut self, code: usize, sample: i32) {
        self.event_code[self.events] = code as u8;
        self.event_sample[self.events] = sample;
        self.events += 1;
    }

    /// The listed order. `soonest` is the earliest return from a place of the row to its end, so the puts up to the
    /// last one that precedes a take are those whose `soonest` is before its call.
    fn list(&mut self) {
        let mut puts = self.finds;
        for &held in self.slots.iter().filter(|&&held| held != NONE) {
            self.row[puts] = held;
            puts += 1;
        }
        let mut soonest = [NEVER; 65];
        for place in (0..puts).rev() {
            soonest[place] = soonest[place + 1].min(self.return_at[usize::from(self.row[place])]);
        }
        let mut standing = 0;
        for find in 0..self.finds {
            let take = self.found_take[find];
            let call = self.call_at[usize::from(take)];
            while standing < puts && (standing <= find || soonest[standing] < call) {
                self.push(self.row[standing]);
                standing += 1;
            }
            self.push(take);
        }
        for place in standing..puts {
            self.push(self.row[place]);
        }
    }

    #[inline]
    fn push(&mut self, op: u8) {
        self.order[self.ordered] = op;
        self.ordered += 1;
    }
}
