//! Where a kind makes no difference, where it can only help, and that it makes
//! one.

use super::*;
use rbatl_tests::games;
use rbatl_tests::random::{cases, Rng};

const SEED: u64 = 0x6B69_6E64;
const CASES: u64 = 600;

/// Each random job beside the same with one resource of the other kind.
fn each_pair(seed: u64, mut compare: impl FnMut(&mut Rng, &[u8], usize, &str)) {
    for case in 0..cases(CASES) {
        let mut rng = Rng::for_case(seed, case);
        let job = games::teamwork(&mut rng);
        let resource = rng.below(Sizes::of(&job).resources);
        compare(&mut rng, &job, resource, &format!("case {case}"));
    }
}

/// The two jobs have the same sets and tables.
fn assert_same(job: &[u8], other: &[u8], what: &str) {
    let (job, other) = (Asked::of(job), Asked::of(other));
    assert_eq!(job.sets(), other.sets(), "{what}: sets");
    assert!(job.tables() == other.tables(), "{what}: tables");
}

#[test]
fn a_team_of_one_agent() {
    each_pair(SEED, |rng, job, resource, what| {
        let agent = rng.below(Sizes::of(job).agents);
        let job = with_fields(job, |_| vec![(COALITION, 1 << agent)]);
        assert_same(&job, &swapped(&job, resource), what);
    });
}

#[test]
fn an_unlimited_resource() {
    each_pair(SEED ^ 1, |_, job, resource, what| {
        let job = with_fields(job, |_| vec![(BOUND + resource, UNLIMITED)]);
        assert_same(&job, &swapped(&job, resource), what);
    });
}

/// The largest is at most the sum: over rows that are not strategic, a state that
/// satisfies a row with sum does so with max.
#[test]
fn max_can_only_help() {
    let mut more = 0;
    each_pair(SEED ^ 2, |_, job, resource, what| {
        let mut sum = with_fields(job, |kind| {
            let right = u8::from(kind == UNTIL);
            vec![(LEFT, 1), (RIGHT, 2 * right)]
        });
        // Rows above the first four may be any, but name strategic rows.
        for i in 4..Sizes::of(&sum).rows {
            if !is_strategic(sum[row(i, KIND)]) {
                sum[row(i, KIND)..row(i + 1, KIND)].fill(0);
            }
        }
        sum[resource_kind(resource)] = SUM;
        let (less, most) = (Asked::of(&sum), Asked::of(&swapped(&sum, resource)));
        let pairs = less.sets().into_iter().zip(most.sets());
        for (i, (less, most)) in pairs.enumerate() {
            assert_eq!(less & !most, 0, "{what}, row {i}");
            more += u64::from(less != most);
        }
    });
    assert!(more > cases(CASES) / 20, "only {more} rows gain a state");
}

/// The jobs that the other tests compare are such that kinds matter to them.
#[test]
fn kinds_matter() {
    let (mut sets, mut tables) = (0, 0);
    each_pair(SEED ^ 3, |_, job, resource, _| {
        let (job, other) = (Asked::of(job), Asked::of(&swapped(job, resource)));
        sets += u64::from(job.sets() != other.sets());
        tables += u64::from(job.tables() != other.tables());
    });
    println!("{sets} sets and {tables} tables differ");
    assert!(sets > cases(CASES) / 20, "only {sets} sets differ");
    assert!(tables > cases(CASES) / 5, "only {tables} tables differ");
}
