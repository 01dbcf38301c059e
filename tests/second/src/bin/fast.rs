//! `fast`: a run file on standard input, the listing on standard output, done fast.

use std::io::{Read, Write};

/// One byte more than a run file may have.
const ENOUGH: usize = 65_537;

fn main() -> std::io::Result<()> {
    let mut text = vec![0; ENOUGH];
    let mut length = 0;
    let mut input = std::io::stdin().lock();
    while length < ENOUGH {
        match input.read(&mut text[length..])? {
            0 => break,
            more => length += more,
        }
    }
    let mut out = Vec::with_capacity(16_384);
    second::fast::answer(&text[..length], &mut out);
    let mut output = std::io::stdout().lock();
    output.write_all(&out)?;
    output.flush()
}
