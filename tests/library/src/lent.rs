//! Lent lists: each lies in a longer row of drawn entries, so that whatever a call touches shows.

use second::gen::prng::Prng;
use std::fmt::Display;

/// Entries before and behind each lent list.
const GUARD: usize = 3;

/// An entry of a lent list.
pub trait Entry: Copy + Eq + Display {
    /// Any value: what stands in a list before a call.
    fn draw(prng: &mut Prng) -> Self;
}

impl Entry for u8 {
    fn draw(prng: &mut Prng) -> u8 {
        prng.next_word() as u8
    }
}

impl Entry for u16 {
    fn draw(prng: &mut Prng) -> u16 {
        prng.next_word() as u16
    }
}

impl Entry for i32 {
    fn draw(prng: &mut Prng) -> i32 {
        prng.next_word() as i32
    }
}

/// A list to be lent, with the entries around it.
#[derive(Clone, PartialEq, Eq)]
pub struct Lent<T> {
    cells: Vec<T>,
    length: usize,
}

impl<T: Entry> Lent<T> {
    /// A list of this length; every entry is drawn.
    pub fn draw(prng: &mut Prng, length: usize) -> Lent<T> {
        Lent { cells: (0..length + 2 * GUARD).map(|_| T::draw(prng)).collect(), length }
    }

    /// What is lent.
    pub fn list(&self) -> &[T] {
        &self.cells[GUARD..GUARD + self.length]
    }

    /// What is lent, to write to.
    pub fn list_mut(&mut self) -> &mut [T] {
        &mut self.cells[GUARD..GUARD + self.length]
    }

    /// The entry behind the last one that is lent.
    pub fn behind_mut(&mut self) -> &mut T {
        &mut self.cells[GUARD + self.length]
    }

    /// The first entry, lent or around it, that is not as expected.
    pub fn difference(&self, name: &str, expected: &Lent<T>) -> Result<(), String> {
        let Some(place) = (0..self.cells.len()).find(|&place| self.cells[place] != expected.cells[place]) else {
            return Ok(());
        };
        let (entry, is, should) = (place as i64 - GUARD as i64, self.cells[place], expected.cells[place]);
        Err(format!("{name}[{entry}] of {} lent is {is}, should be {should}", self.length))
    }
}

/// Lengths for lists that need these: exact, or longer, or some too short.
pub fn draw_lengths(prng: &mut Prng, needs: &[usize]) -> Vec<usize> {
    let style = prng.below(4);
    let longer = |&need: &usize| match style {
        0 => need,
        1 => need + prng.between(1, 40),
        _ => need + prng.pick(&[0, 0, 1, 2, 17, 200]),
    };
    let mut lengths: Vec<usize> = needs.iter().map(longer).collect();
    if prng.once_in(4) {
        for _ in 0..prng.pick(&[1, 1, 1, 3]) {
            let list = prng.below(needs.len());
            lengths[list] = needs[list].saturating_sub(prng.pick(&[1, 1, 1, 2, 1_000]));
        }
    }
    lengths
}
