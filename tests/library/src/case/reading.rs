//! A text read: the answer and every entry of the four lent lists.

use super::{compare, tell, Tally};
use crate::lent::draw_lengths;
use crate::library::Library;
use crate::lists::ReadLists;
use second::gen::prng::Prng;
use second::rules::{MOST_OPERATIONS, MOST_STEPS};
use second::runfile::{parse, read};

/// Reads the text both ways, into lists with the same sentinels.
pub fn check(library: Library, prng: &mut Prng, text: &[u8], tally: &mut Tally) -> Result<(), String> {
    let (operations, steps) = match parse(text) {
        Ok(lists) => (lists.kind.len().min(MOST_OPERATIONS + 1), lists.schedule.len().min(MOST_STEPS + 1)),
        Err(_) => (prng.below(9), prng.below(20)),
    };
    let lengths = draw_lengths(prng, &[operations, operations, operations, steps]);
    let mut expected = ReadLists::draw(prng, [lengths[0], lengths[1], lengths[2], lengths[3]]);
    let mut lists = expected.clone();
    let should = read(text, &mut expected.lend_second());
    let answer = library.read(text, &mut lists);
    let compared = compare(tally, "read", &should, &answer).and_then(|()| lists.difference(&expected));
    compared.map_err(|difference| tell("read", &difference, &String::from_utf8_lossy(text)))
}
