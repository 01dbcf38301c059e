//! Proposed orders: the library's judge against the second program's, and against the search where it is small.

use super::{compare, tell, Tally};
use crate::fault;
use crate::library::Library;
use crate::proposal::{self, Proposal, FEW};
use second::brute::{events_of, this_linearizes};
use second::gen::prng::Prng;
use second::judge::{judge, History};
use second::rules::{Inputs, Refusal};

/// Judges an order for the history of the run, if there is one, and two small ones that no run made.
pub fn check(library: Library, prng: &mut Prng, inputs: &Inputs, tally: &mut Tally) -> Result<(), String> {
    if let Some(proposal) = proposal::from_run(prng, inputs) {
        check_one(library, &proposal, tally)?;
    }
    for _ in 0..2 {
        check_one(library, &proposal::draw_small(prng), tally)?;
    }
    Ok(())
}

/// Judges one order both ways.
fn check_one(library: Library, proposal: &Proposal, tally: &mut Tally) -> Result<(), String> {
    let inputs = proposal.lists.inputs();
    let code: Vec<u32> = proposal.codes.iter().map(|&code| code.into()).collect();
    let order: Vec<u32> = proposal.order.iter().map(|&op| op.into()).collect();
    let history = History { code: &code, sample: &proposal.samples };
    let should = judge(inputs.threads, &inputs.table, &history, &order);
    let should = fault::after_second_judge(library.fault, should);
    let answer = library.judge(inputs.threads, inputs.table, (&proposal.codes, &proposal.samples), &proposal.order);
    let compared = compare(tally, "judge", &should, &answer).and_then(|()| search(proposal, &code, &answer, tally));
    compared.map_err(|difference| tell("judge", &difference, proposal))
}

/// Of few operations: verdict 0 exactly where the search finds that the order is a linearization.
fn search(proposal: &Proposal, code: &[u32], answer: &Result<u32, Refusal>, tally: &mut Tally) -> Result<(), String> {
    let Ok(verdict) = *answer else { return Ok(()) };
    *tally.entry(format!("verdict {verdict}")).or_default() += 1;
    let table = proposal.lists.inputs().table;
    if table.len() > FEW {
        return Ok(());
    }
    let order: Vec<usize> = proposal.order.iter().map(|&op| op.into()).collect();
    let linearizes = this_linearizes(&table, &events_of(code, &proposal.samples), &order);
    *tally.entry(format!("searched, linearization {linearizes}")).or_default() += 1;
    if linearizes == (verdict == 0) {
        Ok(())
    } else {
        Err(format!("verdict {verdict}, and by the search the order is a linearization: {linearizes}"))
    }
}
