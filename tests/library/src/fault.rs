//! Faults that can be planted behind the calls of the library, to see that the comparison notices each.

use crate::lent::Lent;
use crate::lists::{ReadLists, RunLists};
use second::rules::Refusal;
use second::run::Outcome;
use second::runfile::Header;

#[derive(Clone, Copy, Debug, PartialEq, Eq)]
pub enum Fault {
    Nothing,
    /// A run changes the event code behind its last one, where one is lent.
    RunTouchesBehind,
    /// A run changes the entry behind the last that is lent.
    RunTouchesUnlent,
    /// A refused run changes an entry.
    RefusedRunWrites,
    /// A run shows no end of thread 0's pass.
    RunForgetsEnd,
    /// A run counts one fruitless pass too few.
    RunCountsFewer,
    /// A refused run tells no detail.
    RunTellsNoDetail,
    /// Every order that is judged is fine.
    JudgeSays0,
    /// Every order that is judged has verdict 24.
    JudgeSays24,
    /// Verdict 23 is told as 24.
    JudgeSkips23,
    /// Both judges pass orders with verdict 24: only the search can notice.
    BothJudgesPass24,
    /// Refusal 10 names the place behind the lowest.
    JudgeTellsNext,
    /// The reader changes the schedule entry behind the last, where one is lent.
    ReaderTouchesBehind,
    /// A refused reading changes an entry.
    RefusedReaderWrites,
    /// The reader cuts samples to 16 bits.
    ReaderCutsSamples,
    /// The text's byte behind the last is changed, where one is lent.
    WriterTouchesBehind,
    /// A refused writing changes a byte.
    RefusedWriterWrites,
    /// The last line feed is missing.
    WriterForgetsEnd,
}

/// Each planted fault with the name that `compare_library --fault` takes.
pub const FAULTS: [(&str, Fault); 17] = [
    ("run-touches-behind", Fault::RunTouchesBehind),
    ("run-touches-unlent", Fault::RunTouchesUnlent),
    ("refused-run-writes", Fault::RefusedRunWrites),
    ("run-forgets-end", Fault::RunForgetsEnd),
    ("run-counts-fewer", Fault::RunCountsFewer),
    ("run-tells-no-detail", Fault::RunTellsNoDetail),
    ("judge-says-0", Fault::JudgeSays0),
    ("judge-says-24", Fault::JudgeSays24),
    ("judge-skips-23", Fault::JudgeSkips23),
    ("both-judges-pass-24", Fault::BothJudgesPass24),
    ("judge-tells-next", Fault::JudgeTellsNext),
    ("reader-touches-behind", Fault::ReaderTouchesBehind),
    ("refused-reader-writes", Fault::RefusedReaderWrites),
    ("reader-cuts-samples", Fault::ReaderCutsSamples),
    ("writer-touches-behind", Fault::WriterTouchesBehind),
    ("refused-writer-writes", Fault::RefusedWriterWrites),
    ("writer-forgets-end", Fault::WriterForgetsEnd),
];

/// The fault of that name.
pub fn find(name: &str) -> Option<Fault> {
    FAULTS.iter().find(|(known, _)| *known == name).map(|(_, fault)| *fault)
}

/// Changes the entry at a place, where the list has one.
fn touch<T: Copy>(list: &mut [T], at: usize, change: impl Fn(T) -> T) {
    if let Some(entry) = list.get_mut(at) {
        *entry = change(*entry);
    }
}

/// What a run seems to have answered and written.
pub fn after_run(fault: Fault, mut answer: Result<Outcome, Refusal>, lists: &mut RunLists) -> Result<Outcome, Refusal> {
    match (fault, &mut answer) {
        (Fault::RunTouchesBehind, Ok(ran)) => touch(lists.codes.list_mut(), ran.events, |code| code ^ 1),
        (Fault::RunTouchesUnlent, Ok(_)) => *lists.ends.behind_mut() ^= 1,
        (Fault::RefusedRunWrites, Err(_)) => touch(lists.held.list_mut(), 0, |sample| sample ^ 1),
        (Fault::RunForgetsEnd, Ok(_)) => touch(lists.ends.list_mut(), 0, |_| 0),
        (Fault::RunCountsFewer, Ok(ran)) => ran.counts.fruitless = ran.counts.fruitless.saturating_sub(1),
        (Fault::RunTellsNoDetail, Err(refusal)) => refusal.detail = 0,
        _ => {}
    }
    answer
}

/// What the judge seems to have answered.
pub fn after_judge(fault: Fault, answer: Result<u32, Refusal>) -> Result<u32, Refusal> {
    match (fault, answer) {
        (Fault::JudgeSays0, Ok(_)) => Ok(0),
        (Fault::JudgeSays24, Ok(_)) => Ok(24),
        (Fault::JudgeSkips23, Ok(23)) => Ok(24),
        (Fault::BothJudgesPass24, Ok(24)) => Ok(0),
        (Fault::JudgeTellsNext, Err(Refusal { number: 10, detail })) => Err(Refusal { number: 10, detail: detail + 1 }),
        _ => answer,
    }
}

/// What the second program's judge seems to have answered.
pub fn after_second_judge(fault: Fault, answer: Result<u32, Refusal>) -> Result<u32, Refusal> {
    match (fault, answer) {
        (Fault::BothJudgesPass24, Ok(24)) => Ok(0),
        _ => answer,
    }
}

/// What the reader seems to have answered and written.
pub fn after_read(fault: Fault, answer: Result<Header, Refusal>, lists: &mut ReadLists) -> Result<Header, Refusal> {
    match (fault, &answer) {
        (Fault::ReaderTouchesBehind, Ok(read)) => touch(lists.schedule.list_mut(), read.steps, |entry| entry ^ 1),
        (Fault::RefusedReaderWrites, Err(_)) => touch(lists.kind.list_mut(), 0, |kind| kind ^ 1),
        (Fault::ReaderCutsSamples, Ok(read)) => {
            let samples = &mut lists.sample.list_mut()[..read.operations];
            samples.iter_mut().for_each(|sample| *sample = i32::from(*sample as i16));
        }
        _ => {}
    }
    answer
}

/// What a function that makes a text seems to have answered and written.
pub fn after_make(fault: Fault, answer: Result<usize, Refusal>, text: &mut Lent<u8>) -> Result<usize, Refusal> {
    match (fault, answer) {
        (Fault::WriterTouchesBehind, Ok(bytes)) => touch(text.list_mut(), bytes, |byte| byte ^ 1),
        (Fault::RefusedWriterWrites, Err(_)) => touch(text.list_mut(), 0, |byte| byte ^ 1),
        (Fault::WriterForgetsEnd, Ok(bytes)) => return Ok(bytes - 1),
        _ => {}
    }
    answer
}
