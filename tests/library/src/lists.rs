//! The lists that are lent to a run and to the reader.

use crate::lent::{draw_lengths, Lent};
use second::gen::prng::Prng;
use second::run::phase::Record;
use second::run::Lent as SecondLent;
use second::runfile::Room;

/// The eight lists that are lent to a run.
#[derive(Clone)]
pub struct RunLists {
    pub codes: Lent<u16>,
    pub values: Lent<i32>,
    pub order: Lent<u8>,
    pub marks: Lent<u8>,
    pub held: Lent<i32>,
    pub phases: Lent<u8>,
    pub numbers: Lent<i32>,
    pub ends: Lent<u8>,
}

impl RunLists {
    /// Lists for a run of these sizes.
    pub fn draw(prng: &mut Prng, threads: usize, slots: usize, operations: usize) -> RunLists {
        let (ops, events) = (operations, 2 * operations);
        let length = draw_lengths(prng, &[events, events, ops, slots, slots, threads, threads, threads]);
        RunLists {
            codes: Lent::draw(prng, length[0]),
            values: Lent::draw(prng, length[1]),
            order: Lent::draw(prng, length[2]),
            marks: Lent::draw(prng, length[3]),
            held: Lent::draw(prng, length[4]),
            phases: Lent::draw(prng, length[5]),
            numbers: Lent::draw(prng, length[6]),
            ends: Lent::draw(prng, length[7]),
        }
    }

    /// The lists as the library takes them.
    pub fn lend(&mut self) -> outside::Lent<'_> {
        outside::Lent {
            codes: self.codes.list_mut(),
            values: self.values.list_mut(),
            order: self.order.list_mut(),
            marks: self.marks.list_mut(),
            held: self.held.list_mut(),
            phases: self.phases.list_mut(),
            numbers: self.numbers.list_mut(),
            ends: self.ends.list_mut(),
        }
    }

    /// Lends them to the second program, which has wider entries, and one list of records where the library has three.
    pub fn lend_second<R>(&mut self, call: impl FnOnce(&mut SecondLent) -> R) -> R {
        let mut code: Vec<u32> = self.codes.list().iter().map(|&code| code.into()).collect();
        let mut order: Vec<u32> = self.order.list().iter().map(|&op| op.into()).collect();
        let (phases, numbers, ends) = (self.phases.list_mut(), self.numbers.list_mut(), self.ends.list_mut());
        let room = phases.len().min(numbers.len()).min(ends.len());
        let record = |at: usize| Record { phase: phases[at], number: numbers[at], end: ends[at] };
        let mut records: Vec<Record> = (0..room).map(record).collect();
        let answer = call(&mut SecondLent {
            event_code: &mut code,
            event_sample: self.values.list_mut(),
            order: &mut order,
            slot_mark: self.marks.list_mut(),
            slot_sample: self.held.list_mut(),
            record: &mut records,
        });
        for (at, record) in records.iter().enumerate() {
            (phases[at], numbers[at], ends[at]) = (record.phase, record.number, record.end);
        }
        for (entry, code) in self.codes.list_mut().iter_mut().zip(code) {
            *entry = u16::try_from(code).expect("an event code has 16 bits");
        }
        for (entry, op) in self.order.list_mut().iter_mut().zip(order) {
            *entry = u8::try_from(op).expect("an operation has 8 bits");
        }
        answer
    }

    /// The first entry of the eight lists that is not as expected.
    pub fn difference(&self, expected: &RunLists) -> Result<(), String> {
        self.codes.difference("codes", &expected.codes)?;
        self.values.difference("values", &expected.values)?;
        self.order.difference("order", &expected.order)?;
        self.marks.difference("marks", &expected.marks)?;
        self.held.difference("held", &expected.held)?;
        self.phases.difference("phases", &expected.phases)?;
        self.numbers.difference("numbers", &expected.numbers)?;
        self.ends.difference("ends", &expected.ends)
    }
}

/// The four lists that are lent to the reader.
#[derive(Clone)]
pub struct ReadLists {
    pub thread: Lent<u8>,
    pub kind: Lent<u8>,
    pub sample: Lent<i32>,
    pub schedule: Lent<u8>,
}

impl ReadLists {
    /// Lists of these lengths.
    pub fn draw(prng: &mut Prng, length: [usize; 4]) -> ReadLists {
        ReadLists {
            thread: Lent::draw(prng, length[0]),
            kind: Lent::draw(prng, length[1]),
            sample: Lent::draw(prng, length[2]),
            schedule: Lent::draw(prng, length[3]),
        }
    }

    /// The lists as the second program's reader takes them.
    pub fn lend_second(&mut self) -> Room<'_> {
        Room {
            thread: self.thread.list_mut(),
            kind: self.kind.list_mut(),
            sample: self.sample.list_mut(),
            schedule: self.schedule.list_mut(),
        }
    }

    /// The first entry of the four lists that is not as expected.
    pub fn difference(&self, expected: &ReadLists) -> Result<(), String> {
        self.thread.difference("thread", &expected.thread)?;
        self.kind.difference("kind", &expected.kind)?;
        self.sample.difference("sample", &expected.sample)?;
        self.schedule.difference("schedule", &expected.schedule)
    }
}
