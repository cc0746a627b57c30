//! Strategies tried outright, on tiny jobs: sets, ranks, moves and replies.

use super::*;
use rbatl_tests::checker::structure::{Amounts, INFINITE};
use rbatl_tests::checker::verdict::{self, Verdict};
use rbatl_tests::checker::NEVER;
use rbatl_tests::checker::{rounds, splits};
use rbatl_tests::layout::*;
use rbatl_tests::random::{cases, Rng};
use rbatl_tests::{block, games, jobs, text};

const SEED: u64 = 0x7469_6E79;
const CASES: u64 = 2_000;
/// Strategies tried for one position and number of moves.
const LIMIT: usize = 2_000;

/// What was compared.
#[derive(Default, Debug)]
struct Seen {
    jobs: u64,
    /// Rows whose replies were played against every strategy.
    rules: u64,
    positions: usize,
    replies: usize,
    /// The largest finite rank.
    longest: u16,
    /// Jobs that are others with a resource of the other kind, or without charges.
    by_kind: u64,
    by_charge: u64,
}

fn compare(job: &[u8], limit: usize, seen: &mut Seen, what: &str) {
    assert_eq!(block::check(job), 0, "{what}");
    let solved = Solved::of(job);
    let Some(verdicts) = verdict::solve(&solved.structure, limit) else {
        return;
    };
    seen.jobs += 1;
    match solved.structure.charges {
        true => seen.by_charge += u64::from(depends_on_charges(job, &solved)),
        false => seen.by_kind += u64::from(depends_on_kinds(job, &solved)),
    }
    let sets: Vec<Set> = verdicts.iter().map(|verdict| verdict.set).collect();
    assert_eq!(sets, solved.sets, "{what}: sets");
    assert_eq!(rounds::label(&solved.structure), sets, "{what}: rounds");
    if !solved.structure.charges {
        assert_eq!(splits::label(&solved.structure), sets, "{what}: splits");
    }
    for (row, table) in solved.tables() {
        let what = format!("{what}, row {row}");
        compare_table(&table, &verdicts[row], seen, &what);
        let rule = |state, stock: Amounts, mv| table.reply(position(&table, state, stock), mv);
        let wins = verdict::rule_wins(&solved.structure, row, &verdicts, &rule, limit);
        assert_ne!(wins, Some(false), "{what}: the replies lose a play");
        seen.rules += u64::from(wins == Some(true));
    }
}

/// Whether a table differs in the job with a resource of the other kind.
fn depends_on_kinds(job: &[u8], solved: &Solved) -> bool {
    let mut other = job.to_vec();
    (0..Sizes::of(job).resources).any(|resource| {
        other[resource_kind(resource)] ^= SUM ^ MAX;
        have_other_ranks(&Solved::of(&other), solved)
    })
}

/// Whether a table differs in the job with 0 for each charge.
fn depends_on_charges(job: &[u8], solved: &Solved) -> bool {
    let mut other = job.to_vec();
    for (place, _) in cost_places(job) {
        other[place] = cost_byte(cost_of(job[place]).max(0));
    }
    have_other_ranks(&Solved::of(&other), solved)
}

fn have_other_ranks(a: &Solved, b: &Solved) -> bool {
    let ranks = |solved: &Solved| -> Vec<Vec<u16>> {
        solved.tables().map(|(_, table)| table.ranks).collect()
    };
    ranks(a) != ranks(b)
}

/// The number of a position; the stock of an unlimited resource is 0.
fn position(table: &Table, state: usize, stock: Amounts) -> usize {
    let stock = stock.map(|amount| {
        if amount == INFINITE {
            0
        } else {
            amount as usize
        }
    });
    table.position(state, &stock)
}

fn compare_table(table: &Table, verdict: &Verdict, seen: &mut Seen, what: &str) {
    assert_eq!(table.ranks, verdict.ranks, "{what}: ranks");
    assert_eq!(table.moves, verdict.moves, "{what}: moves");
    seen.positions += table.ranks.len();
    let finite = verdict.ranks.iter().filter(|&&rank| rank != NEVER);
    seen.longest = seen.longest.max(finite.max().copied().unwrap_or(0));
    for (position, replies) in verdict.replies.iter().enumerate() {
        if table.wins(position) {
            assert!(replies.is_empty(), "{what}: position {position}");
            continue;
        }
        let moves = table.affordable(position).into_iter();
        let expected: Vec<(u8, u8)> = moves.map(|mv| (mv, table.reply(position, mv))).collect();
        assert_eq!(*replies, expected, "{what}: replies at {position}");
        seen.replies += replies.len();
    }
}

fn compare_jobs(seed: u64, cases: u64, limit: usize, make: fn(&mut Rng) -> Vec<u8>) -> Seen {
    let mut seen = Seen::default();
    for case in 0..cases {
        let job = make(&mut Rng::for_case(seed, case));
        compare(&job, limit, &mut seen, &format!("case {case}"));
    }
    println!("{seen:?}");
    assert!(seen.jobs * 2 > cases, "only {} of {cases} jobs", seen.jobs);
    seen
}

#[test]
fn all_agree_on_tiny_jobs() {
    let seen = compare_jobs(SEED, cases(CASES), LIMIT, games::tiny);
    assert!(seen.rules > seen.jobs, "only {} rules", seen.rules);
    assert!(seen.longest >= 3);
}

/// A way round is seldom over before there are more strategies than with costs alone.
#[test]
fn all_agree_on_tiny_jobs_with_charges() {
    let seen = compare_jobs(SEED ^ 2, cases(CASES) / 4, 10 * LIMIT, games::tiny_cradle);
    assert!(seen.rules > seen.jobs, "only {} rules", seen.rules);
    assert!(seen.by_charge * 4 > seen.jobs, "only {}", seen.by_charge);
    assert!(seen.longest >= 5, "only to {}", seen.longest);
}

/// Where agents have to act together, the kind of a resource often decides.
#[test]
fn all_agree_on_tiny_teamwork() {
    let seen = compare_jobs(SEED ^ 1, cases(CASES) / 2, LIMIT, games::tiny_teamwork);
    assert!(seen.by_kind * 20 > seen.jobs, "only {}", seen.by_kind);
}

/// The rows of Catch whose coalition has one free move; with more of them there
/// are too many strategies.
#[test]
fn all_agree_on_rows_of_catch() {
    let mut job = jobs::load("catch.job");
    job[ROWS] = 4;
    job[row(4, 0)..].fill(0);
    let mut seen = Seen::default();
    compare(&job, 100_000, &mut seen, "Catch");
    assert_eq!(seen.jobs, 1, "too many strategies");
}

/// Section 4 of document 003 takes always within a bound for a least fixed
/// point. In state 0 the opponent may wait for ever before it goes to state 1,
/// where the coalition must pay to reach the safe state 2.
#[test]
fn opponents_may_wait() {
    let text = "\
job,2,1,4,1,2
state,0,1
acts,0,0,1,0
acts,0,1,2,0,0
go,0,0,0,0
go,0,0,1,1
state,1,1
acts,1,0,2,0,1
acts,1,1,1,0
go,1,0,0,3
go,1,1,0,2
state,2,1
acts,2,0,1,0
acts,2,1,1,0
go,2,0,0,2
state,3,0
acts,3,0,1,0
acts,3,1,1,0
go,3,0,0,3
prop,0
always,1,1,0
";
    let job = text::read(text.as_bytes()).expect("a job");
    let mut seen = Seen::default();
    compare(&job, LIMIT, &mut seen, "a patient opponent");
    assert_eq!(seen.jobs, 1, "too many strategies");
    assert_eq!(Solved::of(&job).sets[1], 7);
}
