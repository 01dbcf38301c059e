//! The judge from outside: run I of document 01, and refusals.
use outside::{judge, Refusal, Table};

const RUN_A: Table = Table { thread: &[0, 1, 2], kind: &[1, 1, 2], sample: &[100, 0, 0] };
const CODES: &[u16] = &[0, 2, 3, 4, 5, 1];
const SAMPLES: &[i32] = &[0; 6];

#[test]
fn run_i() {
    for (order, verdict) in [(&[1, 2, 0][..], 0), (&[0, 1, 2], 24), (&[1, 2], 22), (&[2, 1, 0], 23), (&[1, 1, 2], 20)] {
        assert_eq!(judge(3, RUN_A, CODES, SAMPLES, order), Ok(verdict), "{order:?}");
    }
}

#[test]
fn a_listed_operation_that_was_never_called() {
    assert_eq!(judge(3, RUN_A, &[], &[], &[0]), Ok(21));
    assert_eq!(judge(3, RUN_A, &[], &[], &[]), Ok(0));
}

#[test]
fn an_order_may_have_any_length() {
    assert_eq!(judge(3, RUN_A, CODES, SAMPLES, &[0; 1000]), Ok(20));
}

#[test]
fn refusals() {
    let refused = |number, detail| Err(Refusal { number, detail });
    assert_eq!(judge(0, RUN_A, CODES, SAMPLES, &[]), refused(1, 0));
    assert_eq!(judge(17, RUN_A, CODES, SAMPLES, &[]), refused(1, 0));
    assert_eq!(judge(3, RUN_A, CODES, &SAMPLES[..5], &[]), refused(3, 0));
    assert_eq!(judge(3, Table { sample: &[100], ..RUN_A }, CODES, SAMPLES, &[]), refused(3, 0));
    assert_eq!(judge(3, Table { thread: &[0; 129], kind: &[2; 129], sample: &[0; 129] }, CODES, SAMPLES, &[]), refused(4, 0));
    assert_eq!(judge(2, RUN_A, CODES, SAMPLES, &[]), refused(5, 2));
    assert_eq!(judge(3, RUN_A, &[0, 2, 2], &[0; 3], &[]), refused(10, 2));
    assert_eq!(judge(3, RUN_A, &[0, 6], &[0; 2], &[]), refused(10, 1));
}
