//! Pollenloom for Rust: safe functions over the archive `liboutside.a`. The words and numbers are those of document 01; each function's
//! exact statement is in `crates/outside/specs`, and `include/pollenloom.h` says the same to C.
//!
//! Rust's own slices meet all that the archive's functions ask of a caller: pointers that are not null, lengths that hold, and lent
//! lists that nothing else reaches during the call.
#![deny(missing_docs)]

/// What `pollenloom_run` returns: `RunAnswer` of the crate `outside`, field by field.
#[repr(C)]
struct RunAnswer {
    refusal: usize,
    detail: usize,
    events: usize,
    order: usize,
    back: usize,
    steps: usize,
    idle: usize,
    stores: usize,
    swaps: usize,
    finds: usize,
    fruitless: usize,
}

/// What `pollenloom_judge` returns: `JudgeAnswer` of the crate `outside`.
#[repr(C)]
struct JudgeAnswer {
    refusal: usize,
    detail: usize,
    verdict: usize,
}

/// What `pollenloom_read` returns: `ReadAnswer` of the crate `outside`.
#[repr(C)]
struct ReadAnswer {
    refusal: usize,
    detail: usize,
    threads: usize,
    slots: usize,
    operations: usize,
    steps: usize,
}

/// What `pollenloom_write` and `pollenloom_list` return: `TextAnswer` of the crate `outside`.
#[repr(C)]
struct TextAnswer {
    refusal: usize,
    detail: usize,
    bytes: usize,
}

// A slice is a pointer and a length.
extern "C" {
    fn pollenloom_run(
        threads: usize,
        slots: usize,
        thread: *const u8,
        thread_length: usize,
        kind: *const u8,
        kind_length: usize,
        sample: *const i32,
        sample_length: usize,
        schedule: *const u8,
        schedule_length: usize,
        codes: *mut u16,
        codes_length: usize,
        values: *mut i32,
        values_length: usize,
        order: *mut u8,
        order_length: usize,
        marks: *mut u8,
        marks_length: usize,
        held: *mut i32,
        held_length: usize,
        phases: *mut u8,
        phases_length: usize,
        numbers: *mut i32,
        numbers_length: usize,
        ends: *mut u8,
        ends_length: usize,
    ) -> RunAnswer;

    fn pollenloom_judge(
        threads: usize,
        thread: *const u8,
        thread_length: usize,
        kind: *const u8,
        kind_length: usize,
        sample: *const i32,
        sample_length: usize,
        codes: *const u16,
        codes_length: usize,
        samples: *const i32,
        samples_length: usize,
        order: *const u8,
        order_length: usize,
    ) -> JudgeAnswer;

    fn pollenloom_read(
        text: *const u8,
        text_length: usize,
        thread: *mut u8,
        thread_length: usize,
        kind: *mut u8,
        kind_length: usize,
        sample: *mut i32,
        sample_length: usize,
        schedule: *mut u8,
        schedule_length: usize,
    ) -> ReadAnswer;

    fn pollenloom_write(
        threads: usize,
        slots: usize,
        thread: *const u8,
        thread_length: usize,
        kind: *const u8,
        kind_length: usize,
        sample: *const i32,
        sample_length: usize,
        schedule: *const u8,
        schedule_length: usize,
        text: *mut u8,
        text_length: usize,
    ) -> TextAnswer;

    fn pollenloom_list(
        threads: usize,
        slots: usize,
        thread: *const u8,
        thread_length: usize,
        kind: *const u8,
        kind_length: usize,
        sample: *const i32,
        sample_length: usize,
        schedule: *const u8,
        schedule_length: usize,
        text: *mut u8,
        text_length: usize,
    ) -> TextAnswer;
}

/// A text of this many bytes has room for the listing of every run.
pub const LISTING_ROOM: usize = 12288;

/// A table of operations: three lists of one length.
#[derive(Clone, Copy, Debug)]
pub struct Table<'a> {
    /// The thread of each operation.
    pub thread: &'a [u8],
    /// Its kind: 1 put, 2 take.
    pub kind: &'a [u8],
    /// Its sample: 0 for a take.
    pub sample: &'a [i32],
}

/// The lists that the caller of a run lends. An accepted run fills the first entries that it has and touches none after them; a
/// refused one touches nothing.
#[derive(Debug)]
pub struct Lent<'a> {
    /// Event codes: at least twice the operations.
    pub codes: &'a mut [u16],
    /// The samples beside them: at least twice the operations.
    pub values: &'a mut [i32],
    /// The listed order: at least the operations.
    pub order: &'a mut [u8],
    /// Slot marks: at least the slots.
    pub marks: &'a mut [u8],
    /// Slot samples: at least the slots.
    pub held: &'a mut [i32],
    /// Phase codes of the threads: at least the threads.
    pub phases: &'a mut [u8],
    /// The numbers that the phases show: at least the threads.
    pub numbers: &'a mut [i32],
    /// The ends of their passes: at least the threads.
    pub ends: &'a mut [u8],
}

/// Why an input is refused: the document's number and detail.
#[derive(Clone, Copy, Debug, PartialEq, Eq)]
pub struct Refusal {
    /// 1 to 12.
    pub number: usize,
    /// A place where the document gives one, otherwise 0.
    pub detail: usize,
}

/// Number of events, length of the order, reservation count, and the six counts of an accepted run.
#[derive(Clone, Copy, Debug, PartialEq, Eq)]
pub struct Summary {
    /// Entries written to `codes`, and to `values`.
    pub events: usize,
    /// Entries written to `order`.
    pub order: usize,
    /// The reservation count.
    pub back: usize,
    /// The schedule's length.
    pub steps: usize,
    /// Steps of threads at rest with nothing left.
    pub idle: usize,
    /// Samples stored.
    pub stores: usize,
    /// Slots emptied and looked at.
    pub swaps: usize,
    /// Swaps that met a sample.
    pub finds: usize,
    /// Swaps that met nothing at the last slot of a pass.
    pub fruitless: usize,
}

/// Plays a schedule, and fills the lent lists with what the run shows.
pub fn run(threads: usize, slots: usize, table: Table, schedule: &[u8], lent: Lent) -> Result<Summary, Refusal> {
    // Each pointer and length is that of one slice; the lent ones are exclusive, so they overlap nothing.
    let a = unsafe {
        pollenloom_run(
            threads,
            slots,
            table.thread.as_ptr(),
            table.thread.len(),
            table.kind.as_ptr(),
            table.kind.len(),
            table.sample.as_ptr(),
            table.sample.len(),
            schedule.as_ptr(),
            schedule.len(),
            lent.codes.as_mut_ptr(),
            lent.codes.len(),
            lent.values.as_mut_ptr(),
            lent.values.len(),
            lent.order.as_mut_ptr(),
            lent.order.len(),
            lent.marks.as_mut_ptr(),
            lent.marks.len(),
            lent.held.as_mut_ptr(),
            lent.held.len(),
            lent.phases.as_mut_ptr(),
            lent.phases.len(),
            lent.numbers.as_mut_ptr(),
            lent.numbers.len(),
            lent.ends.as_mut_ptr(),
            lent.ends.len(),
        )
    };
    if a.refusal != 0 {
        return Err(Refusal { number: a.refusal, detail: a.detail });
    }
    Ok(Summary {
        events: a.events,
        order: a.order,
        back: a.back,
        steps: a.steps,
        idle: a.idle,
        stores: a.stores,
        swaps: a.swaps,
        finds: a.finds,
        fruitless: a.fruitless,
    })
}

/// The verdict on a proposed order for a history: 0 for a linearization, otherwise 20 to 24, the first fault of the whole order.
pub fn judge(threads: usize, table: Table, codes: &[u16], samples: &[i32], order: &[u8]) -> Result<usize, Refusal> {
    // Each pointer and length is that of one slice, and all are only read.
    let a = unsafe {
        pollenloom_judge(
            threads,
            table.thread.as_ptr(),
            table.thread.len(),
            table.kind.as_ptr(),
            table.kind.len(),
            table.sample.as_ptr(),
            table.sample.len(),
            codes.as_ptr(),
            codes.len(),
            samples.as_ptr(),
            samples.len(),
            order.as_ptr(),
            order.len(),
        )
    };
    if a.refusal != 0 {
        return Err(Refusal { number: a.refusal, detail: a.detail });
    }
    Ok(a.verdict)
}

/// What a run file holds.
#[derive(Clone, Copy, Debug, PartialEq, Eq)]
pub struct Reading {
    /// The number of threads.
    pub threads: usize,
    /// The number of slots.
    pub slots: usize,
    /// Entries written to the three operation lists.
    pub operations: usize,
    /// Entries written to the schedule.
    pub steps: usize,
}

/// Reads a run file into the lent lists: those of the operations, and the schedule.
pub fn read(text: &[u8], thread: &mut [u8], kind: &mut [u8], sample: &mut [i32], schedule: &mut [u8]) -> Result<Reading, Refusal> {
    // Each pointer and length is that of one slice; the lent ones are exclusive, so they overlap nothing.
    let a = unsafe {
        pollenloom_read(
            text.as_ptr(),
            text.len(),
            thread.as_mut_ptr(),
            thread.len(),
            kind.as_mut_ptr(),
            kind.len(),
            sample.as_mut_ptr(),
            sample.len(),
            schedule.as_mut_ptr(),
            schedule.len(),
        )
    };
    if a.refusal != 0 {
        return Err(Refusal { number: a.refusal, detail: a.detail });
    }
    Ok(Reading { threads: a.threads, slots: a.slots, operations: a.operations, steps: a.steps })
}

/// Writes the run file of a run's input into the lent text: the number of bytes.
pub fn write(threads: usize, slots: usize, table: Table, schedule: &[u8], text: &mut [u8]) -> Result<usize, Refusal> {
    // Each pointer and length is that of one slice; the lent one is exclusive, so it overlaps nothing.
    let a = unsafe {
        pollenloom_write(
            threads,
            slots,
            table.thread.as_ptr(),
            table.thread.len(),
            table.kind.as_ptr(),
            table.kind.len(),
            table.sample.as_ptr(),
            table.sample.len(),
            schedule.as_ptr(),
            schedule.len(),
            text.as_mut_ptr(),
            text.len(),
        )
    };
    if a.refusal != 0 {
        return Err(Refusal { number: a.refusal, detail: a.detail });
    }
    Ok(a.bytes)
}

/// Plays a schedule, and writes the run's listing into the lent text: the number of bytes. `LISTING_ROOM` bytes always suffice.
pub fn list(threads: usize, slots: usize, table: Table, schedule: &[u8], text: &mut [u8]) -> Result<usize, Refusal> {
    // Each pointer and length is that of one slice; the lent one is exclusive, so it overlaps nothing.
    let a = unsafe {
        pollenloom_list(
            threads,
            slots,
            table.thread.as_ptr(),
            table.thread.len(),
            table.kind.as_ptr(),
            table.kind.len(),
            table.sample.as_ptr(),
            table.sample.len(),
            schedule.as_ptr(),
            schedule.len(),
            text.as_mut_ptr(),
            text.len(),
        )
    };
    if a.refusal != 0 {
        return Err(Refusal { number: a.refusal, detail: a.detail });
    }
    Ok(a.bytes)
}
