//! Smallest allowances of random jobs, whole and damaged, small and of full size:
//! those that a search finds which tries every pair of bounds.

use super::*;
use rbatl_tests::checker::allowances::{Pair, Trials};
use rbatl_tests::damage::BORDERS;
use rbatl_tests::ffi;
use rbatl_tests::layout::*;
use rbatl_tests::random::cases;
use std::collections::BTreeMap;

const SEED: u64 = 0x6E_6565_6473;
const CASES: u64 = 250;
const FULL_CASES: u64 = 40;

/// Whether each resource is limited in a row, and its kind.
pub type Resources = Vec<(bool, u8)>;

/// Lists of all states of strategic rows.
#[derive(Default, Debug)]
struct Seen {
    /// For each kind by the count of their allowances, 3 for more.
    counts: [[u64; 4]; 3],
    /// For each kind those with a number above the row's own bound.
    above: [u64; 3],
    /// Those that are not empty, by the resources.
    filled: BTreeMap<Resources, u64>,
}

fn bounds(block: &[u8], i: u8) -> &[u8] {
    &block[row(i.into(), BOUND)..row(i.into(), PADDING)]
}

pub fn resources(block: &[u8], i: u8) -> Resources {
    let of = |j: usize| (bounds(block, i)[j] != UNLIMITED, block[resource_kind(j)]);
    (0..Sizes::of(block).resources).map(of).collect()
}

impl Seen {
    fn row(&mut self, asked: &Asked, i: u8) {
        let kind = kind(asked.block, i);
        let larger = |pair: &Pair| pair.iter().zip(bounds(asked.block, i)).any(|(a, b)| a > b);
        for state in 0..Sizes::of(asked.block).states as u8 {
            let pairs = asked.allowances(i, state);
            self.counts[kind][pairs.len().min(3)] += 1;
            self.above[kind] += u64::from(pairs.iter().any(larger));
            if !pairs.is_empty() {
                *self.filled.entry(resources(asked.block, i)).or_default() += 1;
            }
        }
    }

    /// For each kind none, one, two and more, each so often, and as many lists that
    /// the row's own bounds would cut short; resources of all sorts.
    fn assert_telling(&self, least: u64) {
        for kind in 0..3 {
            assert_each_came(&self.counts[kind], &[0, 1, 2, 3], least);
            assert!(self.above[kind] >= least, "{self:?}");
        }
        assert_eq!(self.filled.len(), 4 + 16, "{self:?}");
        assert!(self.filled.values().all(|&n| n >= least / 2), "{self:?}");
    }
}

#[test]
fn whole_jobs() {
    let mut seen = Seen::default();
    let make = |rng: &mut Rng, case: u64| match case % 4 {
        0 => whole(games::mixed)(rng, case),
        _ => whole(games::trade)(rng, case),
    };
    ask_each(SEED, cases(CASES), make, |_, asked| {
        for i in asked.model.rows() {
            seen.row(asked, i);
        }
    });
    seen.assert_telling(cases(CASES) / 50);
}

/// A row or a state that there may not be, on jobs that may not pass.
#[test]
fn damaged_jobs() {
    let mut answers = Counts::default();
    ask_each(SEED ^ 1, cases(CASES), damaged, |rng, asked| {
        let rows = asked.model.rows();
        let row = match rng.one_in(4) || rows.is_empty() {
            true => rng.pick(&BORDERS),
            false => rng.pick(&rows),
        };
        let state = match rng.one_in(4) {
            true => rng.pick(&BORDERS),
            false => rng.below(3) as u8,
        };
        let (answer, _) = asked.allowances_in(ALLOWANCES_BYTES, row, state);
        answers[number(answer)] += 1;
    });
    let came = [0, 1, 2, 3, 4, 5, 6, 8, 9];
    assert_each_came(&answers, &came, cases(CASES) / 100);
    assert_each_came(&answers, &[13], 1);
    assert_none_came(&answers, &[7, 10, 11, 12]);
}

#[test]
fn job_files() {
    let mut seen = Seen::default();
    for name in jobs::names().iter().filter(|&name| name != "full.job") {
        let job = jobs::load(name);
        let asked = Asked::patterned(&job, name);
        for i in asked.model.rows() {
            seen.row(&asked, i);
        }
    }
    assert_each_came(&seen.counts[2], &[0, 1], 5);
}

/// Each pair for the bounds of the row, with the states that the library then lists.
fn trials(block: &[u8], i: u8) -> Trials {
    let (mut list, mut room) = ([0; MAX_STATES], ZEROS);
    let mut job = block.to_vec();
    let mut with = |pair: Pair| {
        job[row(i.into(), BOUND)..row(i.into(), PADDING)].copy_from_slice(&pair);
        let count = ffi::states(&job, i, &mut list, &mut room);
        let states = &list[..usize::try_from(count).expect("a count")];
        (pair, states.iter().map(|state| 1 << state).sum())
    };
    let pairs = (0..=MAX_BOUND).flat_map(|x| (0..=MAX_BOUND).map(move |y| [x, y]));
    Trials(pairs.map(&mut with).collect())
}

/// Each state has the allowances that the library's own lists tell. Gives their counts.
pub fn counts_of_trials(job: &[u8], i: u8, what: &str) -> Vec<usize> {
    let trials = trials(job, i);
    let count = |state: usize| {
        let mut due = trials.smallest(state).concat();
        let (mut list, mut room) = ([255; ALLOWANCES_BYTES], ZEROS);
        let count = ffi::allowances(job, i, state as u8, &mut list, &mut room);
        assert_eq!(count, due.len() as i32 / 2, "{what}, state {state}");
        due.resize(ALLOWANCES_BYTES, 0);
        assert_eq!(list[..], due[..], "{what}, state {state}");
        count as usize
    };
    (0..Sizes::of(job).states).map(count).collect()
}

/// 6,144 positions in every strategic row: beside what the library says of each pair,
/// since the checker would take minutes.
#[test]
fn full_jobs() {
    let mut counts = [0; 4];
    for case in 0..FULL_CASES.max(cases(CASES) / 10) {
        let rng = &mut Rng::for_case(SEED ^ 2, case);
        let kind = rng.pick(&[NEXT, ALWAYS, UNTIL]);
        let (coalition, reach) = (rng.within(1..=7) as u8, rng.within(0..=3));
        let (job, i) = (games::maze(rng, kind, coalition, reach), 2);
        for count in counts_of_trials(&job, i, &format!("case {case}")) {
            counts[count.min(3)] += 1;
        }
    }
    assert_each_came(&counts, &[0, 1, 2], FULL_CASES / 2);
}
