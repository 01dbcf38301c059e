//! Texts made from a run's inputs: their bytes, and every byte behind them. What was written is read back.

use super::{compare, tell, Tally};
use crate::lent::{draw_lengths, Lent};
use crate::library::{Library, Maker};
use crate::lists::ReadLists;
use second::gen::prng::Prng;
use second::rules::{Inputs, MOST_BYTES};
use second::runfile::Header;

/// Makes the text both ways, into lists with the same sentinels.
pub fn check(
    library: Library,
    prng: &mut Prng,
    maker: &Maker,
    inputs: &Inputs,
    tally: &mut Tally,
) -> Result<(), String> {
    let needed = (maker.second)(inputs, &mut vec![0; MOST_BYTES]).unwrap_or(100);
    let length = draw_lengths(prng, &[needed])[0];
    let mut expected = Lent::draw(prng, length);
    let mut text = expected.clone();
    let should = (maker.second)(inputs, expected.list_mut());
    let answer = library.make(maker, inputs, &mut text);
    let mut compared = compare(tally, maker.name, &should, &answer);
    compared = compared.and_then(|()| text.difference("text", &expected));
    if let (Ok(bytes), "write") = (answer, maker.name) {
        compared = compared.and_then(|()| read_back(library, prng, inputs, &text.list()[..bytes]));
    }
    compared.map_err(|difference| tell(maker.name, &difference, inputs))
}

/// Reading what was written gives the same lists.
fn read_back(library: Library, prng: &mut Prng, inputs: &Inputs, text: &[u8]) -> Result<(), String> {
    let (table, operations, steps) = (inputs.table, inputs.table.len(), inputs.schedule.len());
    let mut lists = ReadLists::draw(prng, [operations, operations, operations, steps]);
    let mut expected = lists.clone();
    expected.thread.list_mut().copy_from_slice(table.thread);
    expected.kind.list_mut().copy_from_slice(table.kind);
    expected.sample.list_mut().copy_from_slice(table.sample);
    expected.schedule.list_mut().copy_from_slice(inputs.schedule);
    let header = Header { threads: inputs.threads, slots: inputs.slots, operations, steps };
    match library.read(text, &mut lists) {
        Ok(read) if read == header => lists.difference(&expected),
        answer => Err(format!("read back it answers {answer:?}")),
    }
}
