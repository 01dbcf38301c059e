//! What `bench` prints (document 01, run A and the lines under it).

use crate::fault::Fault;
use crate::rules::{self, Inputs, Refusal, TAKE};
use crate::run::phase::Phase;
use crate::run::step::{Counts, Event};
use crate::run::{play, Played};
use crate::runfile;

/// The listing of a run made from its own inputs: 1 to 9, then the bytes; gives their number.
pub fn list(inputs: &Inputs, out: &mut [u8]) -> Result<usize, Refusal> {
    rules::test_inputs(inputs)?;
    let text = print(inputs, Fault::Nothing);
    rules::test_room(&[(out.len(), text.len())])?;
    out[..text.len()].copy_from_slice(&text);
    Ok(text.len())
}

/// The whole job of `bench`: a run file's bytes to the bytes printed.
pub fn answer(text: &[u8]) -> Vec<u8> {
    answer_with(text, Fault::Nothing)
}

/// As `answer`, with a fault planted.
pub fn answer_with(text: &[u8], fault: Fault) -> Vec<u8> {
    let listed = runfile::parse(text).and_then(|lists| {
        rules::test_inputs(&lists.inputs())?;
        Ok(print(&lists.inputs(), fault))
    });
    listed.unwrap_or_else(refused_line)
}

/// The one line of refused input.
pub fn refused_line(refusal: Refusal) -> Vec<u8> {
    format!("refused\t{}\t{}\n", refusal.number, refusal.detail).into_bytes()
}

/// The listing of inputs that passed.
fn print(inputs: &Inputs, fault: Fault) -> Vec<u8> {
    let Played { back, events, order, slots, phases, counts } = play(inputs, fault);
    let mut text = format!("back\t{back}\n");
    for event in events {
        text += &event_line(inputs, event);
    }
    for op in order {
        text += &format!("order\t{op}\n");
    }
    for (number, slot) in slots.iter().enumerate() {
        let held = slot.map_or("empty".to_string(), |sample| sample.to_string());
        text += &format!("slot\t{number}\t{held}\n");
    }
    for (number, &phase) in phases.iter().enumerate() {
        text += &format!("thread\t{number}\t{}\n", phase_fields(phase));
    }
    text += &count_lines(counts);
    text.into_bytes()
}

/// Kind, operation, and a sample where a take returns.
fn event_line(inputs: &Inputs, event: Event) -> String {
    let op = event.code / 2;
    match event.code % 2 {
        0 => format!("event\tcall\t{op}\n"),
        _ if inputs.table.kind[op] == TAKE => format!("event\treturn\t{op}\t{}\n", event.sample),
        _ => format!("event\treturn\t{op}\n"),
    }
}

/// The phase's word and, for phases 2, 5 and 6, the number it shows (not b).
fn phase_fields(phase: Phase) -> String {
    match phase {
        Phase::Rest => "rest".to_string(),
        Phase::CalledPut => "called-put".to_string(),
        Phase::Reserved { slot } => format!("reserved\t{slot}"),
        Phase::Stored => "stored".to_string(),
        Phase::CalledTake => "called-take".to_string(),
        Phase::Scanning { slot, .. } => format!("scanning\t{slot}"),
        Phase::Holding { sample } => format!("holding\t{sample}"),
    }
}

/// The six counts, each by name.
fn count_lines(counts: Counts) -> String {
    let named = [
        ("steps", counts.steps),
        ("idle", counts.idle),
        ("stores", counts.stores),
        ("swaps", counts.swaps),
        ("finds", counts.finds),
        ("fruitless", counts.fruitless),
    ];
    named.iter().map(|(name, number)| format!("count\t{name}\t{number}\n")).collect()
}
