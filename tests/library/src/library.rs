//! The library, called through `outside`. Its answers come in the second program's types.

use crate::fault::{self, Fault};
use crate::lent::Lent;
use crate::lists::{ReadLists, RunLists};
use second::rules::{Inputs, Refusal, Table};
use second::run::step::Counts;
use second::run::Outcome;
use second::runfile::Header;

/// Threads, slots, table, schedule and the lent text go in; the number of bytes comes out.
type MakeText = fn(usize, usize, outside::Table, &[u8], &mut [u8]) -> Result<usize, outside::Refusal>;

/// A function of the library that makes a text from a run's inputs, and the second program's.
pub struct Maker {
    pub name: &'static str,
    pub library: MakeText,
    pub second: fn(&Inputs, &mut [u8]) -> Result<usize, Refusal>,
}

/// All of them.
pub const MAKERS: [Maker; 2] = [
    Maker { name: "write", library: outside::write, second: second::runfile::write },
    Maker { name: "list", library: outside::list, second: second::listing::list },
];

/// The library with a fault planted behind its calls, or none.
#[derive(Clone, Copy)]
pub struct Library {
    pub fault: Fault,
}

impl Library {
    pub fn run(self, inputs: &Inputs, lists: &mut RunLists) -> Result<Outcome, Refusal> {
        let table = table_of(inputs.table);
        let answer = outside::run(inputs.threads, inputs.slots, table, inputs.schedule, lists.lend());
        fault::after_run(self.fault, answer.map(outcome_of).map_err(refusal_of), lists)
    }

    pub fn judge(
        self,
        threads: usize,
        table: Table,
        (codes, samples): (&[u16], &[i32]),
        order: &[u8],
    ) -> Result<u32, Refusal> {
        let answer = outside::judge(threads, table_of(table), codes, samples, order);
        fault::after_judge(self.fault, answer.map(|verdict| verdict as u32).map_err(refusal_of))
    }

    pub fn read(self, text: &[u8], lists: &mut ReadLists) -> Result<Header, Refusal> {
        let ReadLists { thread, kind, sample, schedule } = lists;
        let answer = outside::read(text, thread.list_mut(), kind.list_mut(), sample.list_mut(), schedule.list_mut());
        fault::after_read(self.fault, answer.map(header_of).map_err(refusal_of), lists)
    }

    pub fn make(self, maker: &Maker, inputs: &Inputs, text: &mut Lent<u8>) -> Result<usize, Refusal> {
        let table = table_of(inputs.table);
        let answer = (maker.library)(inputs.threads, inputs.slots, table, inputs.schedule, text.list_mut());
        fault::after_make(self.fault, answer.map_err(refusal_of), text)
    }
}

fn table_of(table: Table) -> outside::Table {
    outside::Table { thread: table.thread, kind: table.kind, sample: table.sample }
}

fn refusal_of(refusal: outside::Refusal) -> Refusal {
    Refusal { number: refusal.number as u32, detail: refusal.detail }
}

fn header_of(reading: outside::Reading) -> Header {
    let outside::Reading { threads, slots, operations, steps } = reading;
    Header { threads, slots, operations, steps }
}

fn outcome_of(summary: outside::Summary) -> Outcome {
    let outside::Summary { events, order, back, steps, idle, stores, swaps, finds, fruitless } = summary;
    Outcome { events, ordered: order, back, counts: Counts { steps, idle, stores, swaps, finds, fruitless } }
}
