//! Bounds of a run and the refusals that need no run (document 01, 'Numbers that bound a run', 'Numbered refusals').
//!
//! Each test answers for one refusal number. `test_inputs` gives the lowest number that applies, since it tests in
//! rising order and stops at the first that refuses.

pub const MOST_THREADS: usize = 16;
pub const MOST_SLOTS: usize = 64;
pub const MOST_OPERATIONS: usize = 128;
pub const MOST_STEPS: usize = 4_096;
pub const MOST_BYTES: usize = 65_536;

/// Kind of an operation that puts its sample into the queue.
pub const PUT: u8 = 1;
/// Kind of an operation that takes a sample out.
pub const TAKE: u8 = 2;

/// A numbered refusal. The detail is 0 where the document names none.
#[derive(Clone, Copy, Debug, PartialEq, Eq)]
pub struct Refusal {
    pub number: u32,
    pub detail: usize,
}

/// The operation table: three lists that belong together.
#[derive(Clone, Copy, Debug)]
pub struct Table<'a> {
    pub thread: &'a [u8],
    pub kind: &'a [u8],
    pub sample: &'a [i32],
}

/// What a run gets.
#[derive(Clone, Copy, Debug)]
pub struct Inputs<'a> {
    pub threads: usize,
    pub slots: usize,
    pub table: Table<'a>,
    pub schedule: &'a [u8],
}

impl Table<'_> {
    /// Number of operations, once the three lists have one length.
    pub fn len(&self) -> usize {
        self.kind.len()
    }

    pub fn is_empty(&self) -> bool {
        self.kind.is_empty()
    }
}

/// Refuses with this number and detail unless `good`.
pub fn demand(good: bool, number: u32, detail: usize) -> Result<(), Refusal> {
    if good {
        Ok(())
    } else {
        Err(Refusal { number, detail })
    }
}

/// 1: threads not 1 to 16.
pub fn test_threads(threads: usize) -> Result<(), Refusal> {
    demand((1..=MOST_THREADS).contains(&threads), 1, 0)
}

/// 2: slots not 1 to 64.
pub fn test_slots(slots: usize) -> Result<(), Refusal> {
    demand((1..=MOST_SLOTS).contains(&slots), 2, 0)
}

/// 3, of the table: the three operation lists differ in length.
pub fn test_table_lengths(table: &Table) -> Result<(), Refusal> {
    let length = table.kind.len();
    demand(table.thread.len() == length && table.sample.len() == length, 3, 0)
}

/// 4: more than 128 operations.
pub fn test_operation_count(table: &Table) -> Result<(), Refusal> {
    demand(table.len() <= MOST_OPERATIONS, 4, 0)
}

/// 5: thread too high, kind not 1 or 2, or a take with a sample. The detail is the lowest such operation, from 0.
pub fn test_operations(threads: usize, table: &Table) -> Result<(), Refusal> {
    for op in 0..table.len() {
        let known_thread = usize::from(table.thread[op]) < threads;
        let good = match table.kind[op] {
            PUT => known_thread,
            TAKE => known_thread && table.sample[op] == 0,
            _ => false,
        };
        demand(good, 5, op)?;
    }
    Ok(())
}

/// 6: more puts than slots.
pub fn test_puts(slots: usize, table: &Table) -> Result<(), Refusal> {
    let puts = table.kind.iter().filter(|&&kind| kind == PUT).count();
    demand(puts <= slots, 6, 0)
}

/// 7: more than 4,096 schedule entries.
pub fn test_schedule_length(schedule: &[u8]) -> Result<(), Refusal> {
    demand(schedule.len() <= MOST_STEPS, 7, 0)
}

/// 8: a schedule entry is no thread. The detail is the lowest such position, from 0.
pub fn test_schedule_entries(threads: usize, schedule: &[u8]) -> Result<(), Refusal> {
    for (position, &entry) in schedule.iter().enumerate() {
        demand(usize::from(entry) < threads, 8, position)?;
    }
    Ok(())
}

/// 9: a lent output is shorter than needed. Each pair is (length lent, length needed).
pub fn test_room(lent: &[(usize, usize)]) -> Result<(), Refusal> {
    demand(lent.iter().all(|(has, needs)| has >= needs), 9, 0)
}

/// 1 to 8, the lowest that applies.
pub fn test_inputs(inputs: &Inputs) -> Result<(), Refusal> {
    test_threads(inputs.threads)?;
    test_slots(inputs.slots)?;
    test_table_lengths(&inputs.table)?;
    test_operation_count(&inputs.table)?;
    test_operations(inputs.threads, &inputs.table)?;
    test_puts(inputs.slots, &inputs.table)?;
    test_schedule_length(inputs.schedule)?;
    test_schedule_entries(inputs.threads, inputs.schedule)
}
