//! Where a charge makes no difference, where it can only help, and that it makes one.

use super::*;
use rbatl_tests::games;
use rbatl_tests::random::{cases, take_charges, Rng};

const SEED: u64 = 0x6368_6172_6765;
const CASES: u64 = 600;

/// Jobs with charges.
fn each_job(seed: u64, mut compare: impl FnMut(&mut Rng, &[u8], &str)) {
    for case in 0..cases(CASES) {
        let mut rng = Rng::for_case(seed, case);
        let job = match rng.below(4) {
            0 => games::charged(&mut rng, games::small),
            1 => games::charged(&mut rng, games::trade),
            _ => games::cradle(&mut rng),
        };
        compare(&mut rng, &job, &format!("case {case}"));
    }
}

/// The job with another cost in each place that holds one.
fn with_costs(job: &[u8], change: impl Fn(usize, i32) -> i32) -> Vec<u8> {
    let mut changed = job.to_vec();
    for (place, resource) in cost_places(job) {
        changed[place] = cost_byte(change(resource, cost_of(job[place])));
    }
    changed
}

fn assert_same(job: &[u8], other: &[u8], what: &str) {
    let (job, other) = (Asked::of(job), Asked::of(other));
    assert_eq!(job.sets(), other.sets(), "{what}: sets");
    assert!(job.tables() == other.tables(), "{what}: tables");
}

/// Without a bound, costs and charges of a resource bind nothing.
#[test]
fn an_unlimited_resource() {
    each_job(SEED, |rng, job, what| {
        let resource = rng.below(Sizes::of(job).resources);
        let job = with_fields(job, |_| vec![(BOUND + resource, UNLIMITED)]);
        let other = with_costs(
            &job,
            |j, spent| if j == resource { spent.abs() } else { spent },
        );
        assert_same(&job, &other, what);
    });
}

/// Where a stock holds nothing, a team of one agent charges as if it did nothing.
#[test]
fn a_bound_of_0() {
    each_job(SEED ^ 1, |rng, job, what| {
        let sizes = Sizes::of(job);
        let (resource, agent) = (rng.below(sizes.resources), rng.below(sizes.agents));
        let job = with_fields(job, |_| {
            vec![(BOUND + resource, 0), (COALITION, 1 << agent)]
        });
        let other = with_costs(
            &job,
            |j, spent| if j == resource { spent.max(0) } else { spent },
        );
        assert_same(&job, &other, what);
    });
}

/// The job with plain operands in each strategic row, and without others above them.
fn with_plain_operands(job: &[u8]) -> Vec<u8> {
    let mut job = with_fields(job, |_| vec![(LEFT, 1), (RIGHT, 0)]);
    for i in 4..Sizes::of(&job).rows {
        if !is_strategic(job[row(i, KIND)]) {
            job[row(i, KIND)..row(i + 1, KIND)].fill(0);
        }
    }
    job
}

/// Of each position the rank in the second job is as good as in the first or better for
/// the team. Gives how many are better.
fn assert_as_good(less: &Asked, more: &Asked, what: &str) -> u64 {
    let mut better = 0;
    for row_number in less.model.rows() {
        let always = less.block[row(row_number.into(), KIND)] == ALWAYS;
        let ranks = [less, more].map(|asked| asked.table(row_number).ranks);
        for (position, (less, more)) in ranks[0].iter().zip(&ranks[1]).enumerate() {
            let good = if always { more >= less } else { more <= less };
            assert!(
                good,
                "{what}, row {row_number}: {less} to {more} at {position}"
            );
            better += u64::from(less != more);
        }
    }
    better
}

/// A cost one less, or a charge one more, can only help the team that has it.
#[test]
fn a_charge_can_only_help() {
    let mut better = 0;
    each_job(SEED ^ 2, |_, job, what| {
        let less = with_plain_operands(job);
        let kind = |resource: usize| less[resource_kind(resource)];
        let more = with_costs(&less, |resource, spent| match kind(resource) {
            MAX => spent,
            _ => (spent - 1).max(-i32::from(MAX_COST)),
        });
        better += assert_as_good(&Asked::of(&less), &Asked::of(&more), what);
    });
    assert!(better > cases(CASES), "only {better} positions gain");
}

/// A larger bound, with its higher ceiling, can only help at full stock.
#[test]
fn a_bound_can_only_help() {
    let mut more_states = 0;
    each_job(SEED ^ 3, |rng, job, what| {
        let less = with_plain_operands(job);
        let mut more = less.clone();
        for i in 0..Sizes::of(job).rows {
            for resource in 0..Sizes::of(job).resources {
                let place = row(i, BOUND + resource);
                let larger = rng.within(less[place].min(MAX_BOUND).into()..=MAX_BOUND.into());
                if is_strategic(less[row(i, KIND)]) && less[place] != UNLIMITED {
                    more[place] = larger as u8;
                }
            }
        }
        let (less, more) = (Asked::of(&less).sets(), Asked::of(&more).sets());
        for (i, (less, more)) in less.into_iter().zip(more).enumerate() {
            assert_eq!(less & !more, 0, "{what}, row {i}");
            more_states += u64::from(less != more);
        }
    });
    assert!(more_states > cases(CASES) / 10, "only {more_states} rows");
}

/// The jobs that the tests compare are such that charges matter to them.
#[test]
fn charges_matter() {
    let (mut sets, mut tables) = (0, 0);
    each_job(SEED ^ 4, |_, job, _| {
        let mut other = job.to_vec();
        take_charges(&mut other);
        let (job, other) = (Asked::of(job), Asked::of(&other));
        sets += u64::from(job.sets() != other.sets());
        tables += u64::from(job.tables() != other.tables());
    });
    println!("{sets} sets and {tables} tables differ");
    assert!(sets > cases(CASES) / 5, "only {sets} sets differ");
    assert!(tables > cases(CASES) / 3, "only {tables} tables differ");
}

/// Ranks above the number of states come in them, which no job without charges has for
/// until.
#[test]
fn long_ranks_come() {
    let (mut above, mut longest) = (0, 0);
    each_job(SEED ^ 5, |_, job, _| {
        let asked = Asked::of(job);
        for i in asked.model.rows() {
            if job[row(i.into(), KIND)] == UNTIL {
                let finite = asked
                    .table(i)
                    .ranks
                    .into_iter()
                    .filter(|&rank| rank != NEVER);
                let rank = finite.max().unwrap_or(0);
                above += u64::from(usize::from(rank) > Sizes::of(job).states);
                longest = longest.max(rank);
            }
        }
    });
    println!("{above} rows, ranks to {longest}");
    assert!(above > cases(CASES) / 10, "only {above} rows");
    assert!(longest > 24, "only to {longest}");
}
