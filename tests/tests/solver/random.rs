//! Random jobs, whole and damaged, small and of full size.

use super::*;
use rbatl_tests::damage::damage;
use rbatl_tests::games;
use rbatl_tests::layout::*;
use rbatl_tests::random::{block, cases, small_sizes, Rng};

const SEED: u64 = 0x736F_6C76_6572;
const CASES: u64 = 20_000;
const FULL_CASES: u64 = 50;
const CROWDED_CASES: u64 = 200;

/// Some jobs with something to play for, some where kinds of resources matter, some
/// where charges do, some with rows of every shape.
fn small_job(rng: &mut Rng) -> Vec<u8> {
    match rng.below(6) {
        0 => {
            let sizes = small_sizes(rng);
            block(rng, sizes)
        }
        1 => games::teamwork(rng),
        2 => games::charged(rng, games::teamwork),
        3 => games::cradle(rng),
        _ => games::small(rng),
    }
}

/// What the buffers hold beforehand must not matter.
fn lents() -> [Lent; 3] {
    [Lent::patterned(), Lent::filled(0), Lent::filled(255)]
}

/// Labels the job, fills the table of each row and lists its states, and asks for
/// rows that have none. Counts the answers.
fn all_calls(job: &[u8], lent: &Lent, what: &str, seen: &mut Counts) {
    let model = Model::of(job);
    seen[number(lent.label(job, &model, what).answer)] += 1;
    let rows = job.get(ROWS).copied().unwrap_or(0).min(MAX_ROWS as u8);
    for row in (0..=rows).chain([255]) {
        seen[number(lent.table(job, &model, row, what).answer)] += 1;
        seen[number(lent.states(job, &model, row, what).answer)] += 1;
    }
}

#[test]
fn whole_jobs() {
    let (lents, mut seen) = (lents(), Counts::default());
    for case in 0..cases(CASES) {
        let job = small_job(&mut Rng::for_case(SEED, case));
        let lent = &lents[(case % 3) as usize];
        all_calls(&job, lent, &format!("case {case}"), &mut seen);
    }
    assert_each_came(&seen, &[0], 3 * cases(CASES));
    // A whole job is refused for its row alone.
    assert_none_came(&seen, &[1, 2, 3, 4, 5, 6, 7, 9, 10, 11, 12, 13]);
}

#[test]
fn damaged_jobs() {
    let (lents, mut seen) = (lents(), Counts::default());
    for case in 0..cases(CASES) {
        let mut rng = Rng::for_case(!SEED, case);
        let mut job = small_job(&mut rng);
        let how = damage(&mut rng, &mut job);
        let lent = &lents[(case % 3) as usize];
        all_calls(
            &job,
            lent,
            &format!("case {case}, damage: {how}"),
            &mut seen,
        );
    }
    assert_each_came(&seen, &[0, 1, 2, 3, 4, 5, 6, 8], cases(CASES) / 50);
    assert_each_came(&seen, &[13], cases(CASES) / 200);
    assert_none_came(&seen, &[7, 9, 10, 11, 12]);
}

/// 6,144 positions in every strategic row.
#[test]
fn full_jobs() {
    let (lents, mut seen) = (lents(), Counts::default());
    for case in 0..FULL_CASES.max(cases(CASES) / 400) {
        let job = games::full(&mut Rng::for_case(SEED ^ 1, case));
        let lent = &lents[(case % 3) as usize];
        all_calls(&job, lent, &format!("case {case}"), &mut seen);
    }
    assert_each_came(&seen, &[0, 8], 3 * FULL_CASES);
}

/// 32 rows: only those that a row needs are labelled for it.
#[test]
fn crowded_jobs() {
    let (lents, mut seen, mut choosy) = (lents(), Counts::default(), 0);
    for case in 0..CROWDED_CASES.max(cases(CASES) / 100) {
        let job = games::crowd(&mut Rng::for_case(SEED ^ 2, case));
        let lent = &lents[(case % 3) as usize];
        all_calls(&job, lent, &format!("case {case}"), &mut seen);
        choosy += games::choosy_rows(&job).len() as u64;
    }
    assert_each_came(&seen, &[0, 8], 3 * CROWDED_CASES);
    assert!(choosy > 5 * CROWDED_CASES, "{choosy} rows leave some out");
}
