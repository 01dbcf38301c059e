//! The judge against the search for linearizations, both ways, and against the listed orders of runs.

use second::brute::{any_linearizes, events_of, permutations, this_linearizes};
use second::fault::Fault;
use second::gen::history::{draw, Proposal};
use second::gen::{make_valid, prng::Prng};
use second::judge::{judge, History};
use second::rules::{Refusal, Table, PUT, TAKE};
use second::run::play;
use std::collections::BTreeMap;

fn judge_order(proposal: &Proposal, order: &[u32]) -> u32 {
    let history = History { code: &proposal.code, sample: &proposal.event_sample };
    judge(proposal.threads, &proposal.table(), &history, order).expect("the history can stand")
}

/// Verdict 0 exactly for linearizations: here on 20,000 proposed orders, all verdicts among them.
#[test]
fn verdict_0_exactly_for_linearizations() {
    let mut seen = BTreeMap::new();
    for number in 0..20_000 {
        let proposal = draw(&mut Prng::for_case(11, number), 5);
        let verdict = judge_order(&proposal, &proposal.order);
        let events = events_of(&proposal.code, &proposal.event_sample);
        let order: Vec<usize> = proposal.order.iter().map(|&op| op as usize).collect();
        let linearizes = this_linearizes(&proposal.table(), &events, &order);
        assert_eq!(verdict == 0, linearizes, "case {number}: verdict {verdict}");
        *seen.entry(verdict).or_insert(0) += 1;
    }
    println!("verdicts: {seen:?}");
    for verdict in [0, 20, 21, 22, 23, 24] {
        assert!(seen.get(&verdict).is_some_and(|&many| many >= 100), "verdict {verdict} too rare: {seen:?}");
    }
}

/// Some order gets verdict 0 exactly if the history has a linearization.
#[test]
fn some_order_passes_exactly_if_one_linearizes() {
    let mut seen = [0; 2];
    for number in 0..3_000 {
        let proposal = draw(&mut Prng::for_case(12, number), 4);
        let events = events_of(&proposal.code, &proposal.event_sample);
        let linearizable = any_linearizes(&proposal.table(), &events);
        let some_passes = all_orders(proposal.kind.len()).iter().any(|order| judge_order(&proposal, order) == 0);
        assert_eq!(linearizable, some_passes, "case {number}");
        seen[usize::from(linearizable)] += 1;
    }
    assert!(seen.iter().all(|&many| many >= 300), "{seen:?}");
}

/// Every order of every set of operations.
fn all_orders(operations: usize) -> Vec<Vec<u32>> {
    let mut orders = Vec::new();
    for set in 0..1_usize << operations {
        let chosen: Vec<usize> = (0..operations).filter(|op| set >> op & 1 == 1).collect();
        for order in permutations(&chosen) {
            orders.push(order.iter().map(|&op| op as u32).collect());
        }
    }
    orders
}

/// The listed order of a run gets verdict 0; of small runs the search agrees. The counts hold together.
#[test]
fn listed_orders_linearize() {
    let mut searched = 0;
    for number in 0..4_000 {
        let lists = make_valid(13, number);
        let inputs = lists.inputs();
        let played = play(&inputs, Fault::Nothing);
        let code: Vec<u32> = played.events.iter().map(|event| event.code as u32).collect();
        let sample: Vec<i32> = played.events.iter().map(|event| event.sample).collect();
        let order: Vec<u32> = played.order.iter().map(|&op| op as u32).collect();
        let history = History { code: &code, sample: &sample };
        assert_eq!(judge(inputs.threads, &inputs.table, &history, &order), Ok(0), "case {number}");
        let filled = played.slots.iter().flatten().count();
        assert_eq!(played.counts.stores, played.counts.finds + filled);
        if inputs.table.len() <= 5 {
            let events = events_of(&code, &sample);
            assert!(this_linearizes(&inputs.table, &events, &played.order), "case {number}");
            assert!(any_linearizes(&inputs.table, &events), "case {number}");
            searched += 1;
        }
    }
    assert!(searched > 500);
}

/// Each reason for refusal 10, and the lower refusals of the judge.
#[test]
fn refusals_of_the_judge() {
    let table = Table { thread: &[0, 0, 1], kind: &[PUT, TAKE, TAKE], sample: &[5, 0, 0] };
    let refuse = |code: &[u32], sample: &[i32]| judge(2, &table, &History { code, sample }, &[]).err();
    let refused = |number, detail| Some(Refusal { number, detail });
    assert_eq!(refuse(&[6], &[0]), refused(10, 0));
    assert_eq!(refuse(&[0, 0], &[0, 0]), refused(10, 1));
    assert_eq!(refuse(&[2], &[0]), refused(10, 0));
    assert_eq!(refuse(&[0, 2], &[0, 0]), refused(10, 1));
    assert_eq!(refuse(&[0, 4, 3], &[0, 0, 0]), refused(10, 2));
    assert_eq!(refuse(&[0, 1, 1], &[0, 0, 0]), refused(10, 2));
    assert_eq!(refuse(&[0], &[5]), refused(10, 0));
    assert_eq!(refuse(&[0, 1], &[0, 5]), refused(10, 1));
    assert_eq!(refuse(&[0, 1, 2, 3], &[0, 0, 0, 5]), None);
    assert_eq!(refuse(&[0, 1], &[0]), refused(3, 0));
    assert_eq!(judge(0, &table, &History { code: &[], sample: &[0] }, &[]).err(), refused(1, 0));
    assert_eq!(judge(1, &table, &History { code: &[9], sample: &[0] }, &[]).err(), refused(5, 2));
}
