//! A second implementation of the bench of document 01, written from the document alone, simple rather than fast.
//!
//! `rules` bounds and refusals; `run` stepping, history, listed order; `judge` verdicts on proposed orders; `brute`
//! linearization by search; `runfile` reader and writer; `listing` what `bench` prints; `fast` the same job made fast;
//! `gen` seeded cases; `fault` the designs that look right, planted on purpose.
#![forbid(unsafe_code)]

pub mod brute;
pub mod fast;
pub mod fault;
pub mod gen;
pub mod judge;
pub mod listing;
pub mod rules;
pub mod run;
pub mod runfile;
