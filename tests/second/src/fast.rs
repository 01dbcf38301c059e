//! The job of `bench` done fast: one pass over the text, fixed arrays, no allocation while reading or stepping.
//!
//! The baseline of a benchmark. It shares no code with the simple modules; a test compares the two.

mod parse;
mod play;
mod print;

use parse::Parsed;
use play::Machine;

/// The bytes that `bench` prints for this text, appended to `out`.
pub fn answer(text: &[u8], out: &mut Vec<u8>) {
    let mut parsed = Parsed::new();
    match parsed.read(text).and_then(|()| parsed.test()) {
        Err((number, detail)) => print::refused(out, number, detail),
        Ok(()) => {
            let mut machine = Machine::new(&parsed);
            machine.play(&parsed);
            print::listing(out, &parsed, &machine);
        }
    }
}
