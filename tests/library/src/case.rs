//! One case: a run, orders judged, texts made and a text read, each by the library and by the second program.

mod judging;
mod making;
mod reading;
mod running;

use crate::inputs;
use crate::library::{Library, MAKERS};
use second::gen::prng::Prng;
use second::rules::Refusal;
use std::collections::BTreeMap;
use std::fmt::Debug;

/// The seed and the number of cases that `compare_library` takes when none are given.
pub const DEFAULT_SEED: u64 = 1;
pub const DEFAULT_CASES: u64 = 3_000;

/// How often each answer was expected.
pub type Tally = BTreeMap<String, u64>;

/// Most characters of an input that are told.
const MOST_TOLD: usize = 2_000;

/// Case `number` of this seed; what differs, if anything does.
pub fn check(library: Library, seed: u64, number: u64, tally: &mut Tally) -> Result<(), String> {
    let mut prng = Prng::for_case(seed ^ 0x6C69_6272_6172_7900, number);
    let lists = inputs::draw(&mut prng);
    let inputs = lists.inputs();
    running::check(library, &mut prng, &inputs, tally)?;
    judging::check(library, &mut prng, &inputs, tally)?;
    for maker in &MAKERS {
        making::check(library, &mut prng, maker, &inputs, tally)?;
    }
    reading::check(library, &mut prng, &second::gen::make_case(seed, number).text, tally)
}

/// Counts an expected answer, and compares it with the library's.
fn compare<T: PartialEq + Debug>(
    tally: &mut Tally,
    part: &str,
    expected: &Result<T, Refusal>,
    answer: &Result<T, Refusal>,
) -> Result<(), String> {
    let outcome = match expected {
        Ok(_) => format!("{part} accepted"),
        Err(refusal) => format!("{part} refused {}", refusal.number),
    };
    *tally.entry(outcome).or_default() += 1;
    if answer == expected {
        Ok(())
    } else {
        Err(format!("answers {answer:?}, should answer {expected:?}"))
    }
}

/// A difference, with the part and the input that it showed in.
fn tell(part: &str, difference: &str, input: &impl Debug) -> String {
    let input: String = format!("{input:?}").chars().take(MOST_TOLD).collect();
    format!("{part}: {difference}\n  {input}")
}
