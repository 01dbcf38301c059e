//! A run: its answer and every entry of the eight lent lists.

use super::{compare, tell, Tally};
use crate::library::Library;
use crate::lists::RunLists;
use second::gen::prng::Prng;
use second::rules::{Inputs, MOST_OPERATIONS, MOST_SLOTS, MOST_THREADS};
use second::run;

/// Plays the inputs both ways, into lists with the same sentinels.
pub fn check(library: Library, prng: &mut Prng, inputs: &Inputs, tally: &mut Tally) -> Result<(), String> {
    let threads = inputs.threads.min(MOST_THREADS + 1);
    let slots = inputs.slots.min(MOST_SLOTS + 1);
    let operations = inputs.table.len().min(MOST_OPERATIONS + 1);
    let mut expected = RunLists::draw(prng, threads, slots, operations);
    let mut lists = expected.clone();
    let should = expected.lend_second(|lent| run::run(inputs, lent));
    let answer = library.run(inputs, &mut lists);
    let compared = compare(tally, "run", &should, &answer).and_then(|()| lists.difference(&expected));
    compared.map_err(|difference| tell("run", &difference, inputs))
}
