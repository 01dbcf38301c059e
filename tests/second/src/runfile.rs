//! Run files (document 01, 'Run files'): a reader and a writer.
//!
//! The reader tests 12, then 11, then 1, 2, 4 to 9; the writer 1 to 9. Both fill lent lists and touch nothing after
//! what they fill.

use crate::rules::{self, demand, Inputs, Refusal, Table, PUT, TAKE};

/// The lists of a run file, owned.
#[derive(Clone, Debug, Default, PartialEq, Eq)]
pub struct Lists {
    pub threads: usize,
    pub slots: usize,
    pub thread: Vec<u8>,
    pub kind: Vec<u8>,
    pub sample: Vec<i32>,
    pub schedule: Vec<u8>,
}

impl Lists {
    /// The lists as a run gets them.
    pub fn inputs(&self) -> Inputs<'_> {
        let table = Table { thread: &self.thread, kind: &self.kind, sample: &self.sample };
        Inputs { threads: self.threads, slots: self.slots, table, schedule: &self.schedule }
    }
}

/// The lists that a caller lends to the reader.
pub struct Room<'a> {
    pub thread: &'a mut [u8],
    pub kind: &'a mut [u8],
    pub sample: &'a mut [i32],
    pub schedule: &'a mut [u8],
}

/// What the reader gives besides the lent lists.
#[derive(Clone, Copy, Debug, PartialEq, Eq)]
pub struct Header {
    pub threads: usize,
    pub slots: usize,
    pub operations: usize,
    pub steps: usize,
}

/// The reader: 12, 11, then 1, 2, 4 to 9. Refusal 3 cannot apply to lists that came from lines.
pub fn read(text: &[u8], room: &mut Room) -> Result<Header, Refusal> {
    let lists = parse(text)?;
    rules::test_inputs(&lists.inputs())?;
    let (operations, steps) = (lists.kind.len(), lists.schedule.len());
    rules::test_room(&[
        (room.thread.len(), operations),
        (room.kind.len(), operations),
        (room.sample.len(), operations),
        (room.schedule.len(), steps),
    ])?;
    room.thread[..operations].copy_from_slice(&lists.thread);
    room.kind[..operations].copy_from_slice(&lists.kind);
    room.sample[..operations].copy_from_slice(&lists.sample);
    room.schedule[..steps].copy_from_slice(&lists.schedule);
    Ok(Header { threads: lists.threads, slots: lists.slots, operations, steps })
}

/// The lines of a text: only 12 and 11 are tested.
pub fn parse(text: &[u8]) -> Result<Lists, Refusal> {
    demand(text.len() <= rules::MOST_BYTES, 12, 0)?;
    let mut lists = Lists::default();
    let mut line = 0;
    let mut rest = text;
    while !rest.is_empty() || line < 2 {
        line += 1;
        let bad = Refusal { number: 11, detail: line };
        let end = rest.iter().position(|&byte| byte == b'\n').ok_or(bad)?;
        let fields: Vec<&[u8]> = rest[..end].split(|&byte| byte == b'\t').collect();
        take_line(&mut lists, line, &fields).ok_or(bad)?;
        rest = &rest[end + 1..];
    }
    Ok(lists)
}

/// Takes the record of one line into the lists, or `None` if no such record may stand there.
fn take_line(lists: &mut Lists, line: usize, fields: &[&[u8]]) -> Option<()> {
    match (line, fields) {
        (1, [b"threads", number]) => lists.threads = read_small(number)?.into(),
        (2, [b"slots", number]) => lists.slots = read_small(number)?.into(),
        (3.., [b"put", thread, sample]) if lists.schedule.is_empty() => {
            add_operation(lists, read_small(thread)?, PUT, read_sample(sample)?);
        }
        (3.., [b"take", thread]) if lists.schedule.is_empty() => {
            add_operation(lists, read_small(thread)?, TAKE, 0);
        }
        (3.., [b"step", thread]) => lists.schedule.push(read_small(thread)?),
        _ => return None,
    }
    Some(())
}

/// One more operation at the end of the table.
fn add_operation(lists: &mut Lists, thread: u8, kind: u8, sample: i32) {
    lists.thread.push(thread);
    lists.kind.push(kind);
    lists.sample.push(sample);
}

/// A number 0 to 255, decimal, without sign or leading zeros.
fn read_small(field: &[u8]) -> Option<u8> {
    u8::try_from(read_digits(field)?).ok()
}

/// A sample: as above, and a minus before a sample other than 0; it fits 32 signed bits.
fn read_sample(field: &[u8]) -> Option<i32> {
    let value = match field {
        [b'-', digits @ ..] => match read_digits(digits)? {
            0 => return None,
            size => -size,
        },
        digits => read_digits(digits)?,
    };
    i32::try_from(value).ok()
}

/// Decimal digits without leading zeros, at most ten of them: more never fit.
fn read_digits(digits: &[u8]) -> Option<i64> {
    let well_formed = match digits {
        [] => false,
        [b'0'] => true,
        [first, ..] => *first != b'0' && digits.iter().all(u8::is_ascii_digit) && digits.len() <= 10,
    };
    let value = || digits.iter().fold(0, |value, digit| value * 10 + i64::from(digit - b'0'));
    well_formed.then(value)
}

/// The writer: 1 to 9, then the bytes of the run file; gives their number.
pub fn write(inputs: &Inputs, out: &mut [u8]) -> Result<usize, Refusal> {
    rules::test_inputs(inputs)?;
    let text = print(inputs);
    rules::test_room(&[(out.len(), text.len())])?;
    out[..text.len()].copy_from_slice(&text);
    Ok(text.len())
}

/// The bytes of the run file.
fn print(inputs: &Inputs) -> Vec<u8> {
    let mut text = format!("threads\t{}\nslots\t{}\n", inputs.threads, inputs.slots);
    let table = inputs.table;
    for op in 0..table.len() {
        text += &match table.kind[op] {
            PUT => format!("put\t{}\t{}\n", table.thread[op], table.sample[op]),
            _ => format!("take\t{}\n", table.thread[op]),
        };
    }
    for entry in inputs.schedule {
        text += &format!("step\t{entry}\n");
    }
    text.into_bytes()
}
