//! Fixed cases: the worked runs A to J of document 01, short bad texts, every bound at and one past, and the grids.

use super::bounds;
use super::damage;
use super::grid;
use super::plan::{Op, Plan};
use super::prng::Prng;

/// Runs A to H as run files, then small texts that the reader must refuse or take.
const TEXTS: [&str; 41] = [
    "threads\t3\nslots\t2\nput\t0\t100\nput\t1\t0\ntake\t2\nstep\t0\nstep\t0\nstep\t1\nstep\t1\nstep\t1\nstep\t1\n\
     step\t2\nstep\t2\nstep\t2\nstep\t0\nstep\t2\nstep\t2\nstep\t0\n",
    "threads\t3\nslots\t2\nput\t0\t5\nput\t1\t6\ntake\t2\nstep\t0\nstep\t0\nstep\t1\nstep\t1\nstep\t2\nstep\t2\n\
     step\t2\nstep\t0\nstep\t1\nstep\t2\nstep\t2\n",
    "threads\t1\nslots\t1\n",
    "threads\t1\nslots\t1\nstep\t0\nstep\t0\nstep\t0\n",
    "threads\t1\nslots\t1\nput\t0\t7\ntake\t0\nstep\t0\nstep\t0\nstep\t0\nstep\t0\nstep\t0\nstep\t0\nstep\t0\nstep\t0\n",
    "threads\t1\nslots\t1\nput\t0\t7\ntake\t0\nstep\t0\nstep\t0\nstep\t0\nstep\t0\nstep\t0\nstep\t0\nstep\t0\n",
    "threads\t1\nslots\t1\nput\t0\t7\ntake\t0\nstep\t0\nstep\t0\n",
    "threads\t1\nslots\t1\ntake\t0\nstep\t0\nstep\t0\nstep\t0\n",
    "threads\t0\nslots\t0\n",
    "threads\t1\nslots\t1\nput\t0\t1\nput\t0\t2\n",
    "threads\t1\nslots\t2\nput\t0\t1\nput\t0\t2\n",
    "",
    "\n",
    "\n\n",
    "\r\n",
    "\0",
    "threads",
    "threads\t",
    "threads\t1",
    "threads\t1\n",
    "threads\t1\n\n",
    "threads\t1\nslots\t1",
    "threads\t1\nslots\t1\n\n",
    "threads\t1\nslots\t1\nstep\t0",
    "threads\t1\nslots\t1\nstep\t0\ntake\t0\n",
    "threads\t1\nslots\t1\nstep\t0\nput\t0\t1\n",
    "threads\t1\nslots\t1\nslots\t1\n",
    "threads\t1\nthreads\t1\nslots\t1\n",
    "slots\t1\nthreads\t1\n",
    "threads\t1\r\nslots\t1\r\n",
    "threads\t256\nslots\t1\n",
    "threads\t255\nslots\t255\n",
    "threads\t1\nslots\t1\ntake\t0\t0\n",
    "threads\t1\nslots\t1\nput\t0\n",
    "threads\t1\nslots\t1\nput\t0\t-0\n",
    "threads\t1\nslots\t1\nput\t0\t-2147483648\nstep\t0\nstep\t0\nstep\t0\n",
    "threads\t1\nslots\t1\nput\t0\t2147483647\nstep\t0\nstep\t0\nstep\t0\n",
    "threads\t1\nslots\t1\nput\t0\t2147483648\n",
    "threads\t1\nslots\t1\nput\t0\t-2147483649\n",
    "threads\t0\nslots\t0\nstep\t0\nfoot\n",
    "threads\t1\nslots\t1\nstep\t0\t\n",
];

/// (threads, slots, puts, takes, steps) at and one past each bound.
const SIZES: [(usize, usize, usize, usize, usize); 20] = [
    (1, 1, 0, 0, 0),
    (16, 64, 64, 64, 4_096),
    (17, 64, 64, 64, 4_096),
    (0, 1, 0, 0, 0),
    (16, 65, 64, 64, 4_096),
    (1, 0, 0, 0, 0),
    (16, 64, 64, 65, 4_096),
    (16, 64, 65, 63, 4_096),
    (16, 64, 64, 64, 4_097),
    (1, 64, 64, 64, 4_096),
    (16, 1, 1, 127, 4_096),
    (16, 1, 2, 126, 4_096),
    (1, 1, 0, 128, 300),
    (1, 1, 0, 129, 300),
    (2, 64, 64, 0, 300),
    (2, 63, 64, 0, 300),
    (15, 63, 63, 65, 4_095),
    (17, 65, 66, 64, 4_097),
    (16, 65, 66, 64, 4_097),
    (16, 64, 66, 64, 4_097),
];

/// A family of fixed cases: how many there are, and the one of a number.
type Family = (u64, fn(u64) -> Vec<u8>);

/// All families, in the order of their case numbers.
fn families() -> [Family; 7] {
    [
        (TEXTS.len() as u64, |number| TEXTS[number as usize].as_bytes().to_vec()),
        (SIZES.len() as u64, |number| fill(SIZES[number as usize]).text()),
        (grid::FAULT_SETS, grid::make_fault_set),
        (grid::count_odd_numbers(), grid::make_odd_number),
        (grid::CUTS, grid::make_cut),
        (bounds::BOUNDS as u64 * 4, make_bound),
        (24, make_long),
    ]
}

/// The fixed case of this number, the same for every seed, or `None` past the last.
pub fn make(mut number: u64) -> Option<Vec<u8>> {
    for (many, make) in families() {
        if number < many {
            return Some(make(number));
        }
        number -= many;
    }
    None
}

/// A drawn run that meets or breaks one bound, four for each bound.
fn make_bound(number: u64) -> Vec<u8> {
    let mut prng = Prng::for_case(0, number);
    let mut plan = super::valid::draw(&mut prng);
    bounds::break_bound(&mut prng, &mut plan, number as usize / 4);
    plan.text()
}

/// A text of exactly the greatest size, or one byte more.
fn make_long(number: u64) -> Vec<u8> {
    damage::fill_to(&mut Prng::for_case(0, number), [65_536, 65_537][number as usize % 2])
}

/// A run with exactly these sizes: puts and takes dealt to the threads in turn, stepped in turn.
fn fill((threads, slots, puts, takes, steps): (usize, usize, usize, usize, usize)) -> Plan {
    let turn = threads.max(1);
    let op = |number: usize| Op { thread: number % turn, sample: (number < puts).then_some(number as i64 % 3 - 1) };
    Plan {
        threads,
        slots,
        ops: (0..puts + takes).map(op).collect(),
        schedule: (0..steps).map(|place| (place * 7 + place / 5) % turn).collect(),
    }
}
