//! The listing's bytes (document 01, run A and the lines under it).

use super::parse::Parsed;
use super::play::{Machine, HOLDING, NONE, RESERVED, SCANNING};

/// Words by phase code, with what follows them.
const WORDS: [&[u8]; 7] =
    [b"\trest", b"\tcalled-put", b"\treserved\t", b"\tstored", b"\tcalled-take", b"\tscanning\t", b"\tholding\t"];

/// The one line of refused input.
pub fn refused(out: &mut Vec<u8>, number: u32, detail: usize) {
    line(out, b"refused\t", u64::from(number));
    out.push(b'\t');
    natural(out, detail as u64);
    out.push(b'\n');
}

pub fn listing(out: &mut Vec<u8>, parsed: &Parsed, machine: &Machine) {
    out.reserve(16_384);
    line(out, b"back\t", u64::from(machine.back));
    out.push(b'\n');
    events(out, parsed, machine);
    for &op in &machine.order[..machine.ordered] {
        line(out, b"order\t", u64::from(op));
        out.push(b'\n');
    }
    slots(out, parsed, machine);
    threads(out, parsed, machine);
    let counts: [(&[u8], usize); 6] = [
        (b"count\tsteps\t", parsed.steps),
        (b"count\tidle\t", machine.idle),
        (b"count\tstores\t", machine.stores),
        (b"count\tswaps\t", machine.swaps),
        (b"count\tfinds\t", machine.finds),
        (b"count\tfruitless\t", machine.fruitless),
    ];
    for (word, number) in counts {
        line(out, word, number as u64);
        out.push(b'\n');
    }
}

fn events(out: &mut Vec<u8>, parsed: &Parsed, machine: &Machine) {
    for (&code, &sample) in machine.event_code.iter().zip(&machine.event_sample).take(machine.events) {
        let op = code / 2;
        let is_return = code % 2 == 1;
        line(out, if is_return { b"event\treturn\t" } else { b"event\tcall\t" }, u64::from(op));
        if is_return && !parsed.is_put[usize::from(op)] {
            out.push(b'\t');
            integer(out, sample);
        }
        out.push(b'\n');
    }
}

fn slots(out: &mut Vec<u8>, parsed: &Parsed, machine: &Machine) {
    for (number, &held) in machine.slots[..parsed.slots].iter().enumerate() {
        line(out, b"slot\t", number as u64);
        if held == NONE {
            out.extend_from_slice(b"\tempty\n");
        } else {
            out.push(b'\t');
            integer(out, parsed.sample[usize::from(held)]);
            out.push(b'\n');
        }
    }
}

fn threads(out: &mut Vec<u8>, parsed: &Parsed, machine: &Machine) {
    for (number, thread) in machine.threads[..parsed.threads].iter().enumerate() {
        line(out, b"thread\t", number as u64);
        out.extend_from_slice(WORDS[usize::from(thread.phase)]);
        match thread.phase {
            RESERVED | SCANNING => natural(out, u64::from(thread.slot)),
            HOLDING => integer(out, thread.sample),
            _ => {}
        }
        out.push(b'\n');
    }
}

/// Words and a number, without the line's end.
fn line(out: &mut Vec<u8>, words: &[u8], number: u64) {
    out.extend_from_slice(words);
    natural(out, number);
}

fn integer(out: &mut Vec<u8>, value: i32) {
    if value < 0 {
        out.push(b'-');
    }
    natural(out, u64::from(value.unsigned_abs()));
}

fn natural(out: &mut Vec<u8>, mut value: u64) {
    if value < 10 {
        out.push(b'0' + value as u8);
        return;
    }
    let mut digits = [0; 20];
    let mut at = digits.len();
    while value > 0 {
        at -= 1;
        digits[at] = b'0' + (value % 10) as u8;
        value /= 10;
    }
    out.extend_from_slice(&digits[at..]);
}
