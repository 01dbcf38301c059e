//! The library against the second program, for what the program `bench` cannot show: the judge, lent lists with what
//! lies behind their last entries, and refusals that must leave every entry alone.
//!
//! `lent` and `lists` lists filled with sentinels; `inputs` and `proposal` what is drawn; `library` the calls; `case` one case and
//! its parts; `fault` what can be planted behind a call, to see that a case notices it.
#![forbid(unsafe_code)]

pub mod case;
pub mod fault;
pub mod inputs;
pub mod lent;
pub mod library;
pub mod lists;
pub mod proposal;
