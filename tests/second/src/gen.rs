//! Seeded cases: the text of a run file for each seed and case number, always the same one.
//!
//! The first cases are fixed: the worked runs of document 01, every bound at and one past, every set of faults. The
//! others are drawn.

mod bounds;
mod damage;
mod fixed;
mod grid;
pub mod history;
mod plan;
pub mod prng;
mod schedule;
mod valid;

use prng::Prng;

/// The seed that `compare` takes when none is given.
pub const DEFAULT_SEED: u64 = 1;

/// One case: which kind of drawing made it, and the text.
pub struct Case {
    pub kind: &'static str,
    pub text: Vec<u8>,
}

/// Case `number` of this seed.
pub fn make_case(seed: u64, number: u64) -> Case {
    if let Some(text) = fixed::make(number) {
        return Case { kind: "fixed", text };
    }
    let mut prng = Prng::for_case(seed, number);
    let (kind, text) = match prng.below(100) {
        0..=57 => ("valid", valid::draw(&mut prng).text()),
        58..=67 => ("one bound", bounds::draw(&mut prng, 1)),
        68..=74 => ("several faults", bounds::draw_several(&mut prng)),
        75..=95 => ("damaged", damage::draw(&mut prng)),
        _ => ("text size", damage::draw_sized(&mut prng)),
    };
    Case { kind, text }
}

/// The lists of a drawn valid run file, for tests that work on lists.
pub fn make_valid(seed: u64, number: u64) -> crate::runfile::Lists {
    let plan = valid::draw(&mut Prng::for_case(seed, number));
    crate::runfile::parse(&plan.text()).expect("a valid plan is read")
}
