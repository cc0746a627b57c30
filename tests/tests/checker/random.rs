//! Section 4's algorithm, rounds over all positions and the search on positions, on
//! random jobs, those with charges left out of the first.

use super::*;
use rbatl_tests::checker::NEVER;
use rbatl_tests::checker::{rounds, splits};
use rbatl_tests::layout::{ALWAYS, MAX_STATES, STATES, UNTIL};
use rbatl_tests::random::{any_block, cases, Rng};
use rbatl_tests::{block, games, jobs};

const SEED: u64 = 0x7370_6C69_7473;
const CASES: u64 = 3_000;

/// All label the job alike. Gives the sets of its strategic rows.
fn agreed(job: &[u8], what: &str) -> Vec<Set> {
    assert_eq!(block::check(job), 0, "{what}");
    let solved = Solved::of(job);
    if !solved.structure.charges {
        assert_eq!(splits::label(&solved.structure), solved.sets, "{what}");
    }
    assert_eq!(rounds::label(&solved.structure), solved.sets, "{what}");
    let rows = 0..solved.sets.len();
    let strategic = rows.filter(|&row| solved.table(row).is_some());
    strategic.map(|row| solved.sets[row]).collect()
}

/// Jobs of one sort: how many sets of strategic rows there are, and how many of them
/// are neither empty nor full.
fn agreed_sets(seed: u64, make: impl Fn(&mut Rng) -> Vec<u8>) -> (usize, usize) {
    let (mut rows, mut some) = (0, 0);
    for case in 0..cases(CASES) {
        let job = make(&mut Rng::for_case(seed, case));
        let sets = agreed(&job, &format!("case {case}"));
        let all = (1 << job[STATES]) - 1;
        rows += sets.len();
        some += sets.iter().filter(|&&set| set != 0 && set != all).count();
    }
    println!("{some} of {rows} sets are neither empty nor full");
    (rows, some)
}

#[test]
fn small_jobs() {
    let (rows, some) = agreed_sets(SEED, |rng| match rng.below(4) {
        0 => games::teamwork(rng),
        1 => games::trade(rng),
        _ => games::small(rng),
    });
    assert!(some * 4 > rows, "only {some} of {rows}");
}

#[test]
fn small_jobs_with_charges() {
    let (rows, some) = agreed_sets(SEED ^ 2, |rng| match rng.below(4) {
        0 => games::charged(rng, games::teamwork),
        1 => games::charged(rng, games::trade),
        2 => games::charged(rng, games::small),
        _ => games::cradle(rng),
    });
    assert!(some * 4 > rows, "only {some} of {rows}");
}

/// Not the sets alone: the ranks of every position.
#[test]
fn ranks_by_rounds() {
    let mut longest = 0;
    for case in 0..cases(CASES) {
        let rng = &mut Rng::for_case(SEED ^ 3, case);
        let job = match rng.below(3) {
            0 => games::charged(rng, games::small),
            _ => games::few(rng),
        };
        let solved = Solved::of(&job);
        for (row, table) in solved.tables() {
            let due = rounds::ranks(&solved.structure, row, &solved.sets);
            assert!(table.ranks == due, "case {case}, row {row}");
            let finite = due.into_iter().filter(|&rank| rank != NEVER);
            longest = longest.max(finite.max().unwrap_or(0));
        }
    }
    println!("ranks to {longest}");
    assert!(longest > MAX_STATES as u16, "only to {longest}");
}

/// A rank in the thousands, the longest that two stocks can make.
#[test]
fn ranks_of_a_long_way() {
    for (kind, rank) in [
        (UNTIL, 15 * 16 * 23 + 23),
        (ALWAYS, (15 + 15 * 16) * 23 + 23),
    ] {
        for (rising, swapped) in [(true, false), (false, true)] {
            let job = games::long_way(kind, 1, rising, swapped);
            let solved = Solved::of(&job);
            let table = solved.table(2).expect("a strategic row");
            let due = rounds::ranks(&solved.structure, 2, &solved.sets);
            assert!(table.ranks == due, "kind {kind}");
            let finite = due.into_iter().filter(|&rank| rank != NEVER);
            assert_eq!(finite.max(), Some(rank), "kind {kind}");
        }
    }
}

#[test]
fn jobs_of_any_size() {
    for case in 0..cases(CASES) / 100 {
        let job = any_block(&mut Rng::for_case(!SEED, case));
        agreed(&job, &format!("case {case}"));
    }
}

#[test]
fn full_jobs() {
    for case in 0..cases(CASES) / 500 {
        let job = games::full(&mut Rng::for_case(SEED ^ 1, case));
        agreed(&job, &format!("case {case}"));
    }
    for name in jobs::names() {
        let sets = agreed(&jobs::load(&name), &name);
        assert!(sets.iter().all(|&set| set < 1 << MAX_STATES));
    }
}
