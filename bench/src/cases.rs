//! The jobs that are timed. Each has one strategic row, over two propositions.

use rbatl_tests::ffi;
use rbatl_tests::games;
use rbatl_tests::jobs::with_one_resource;
use rbatl_tests::layout::{
    resource_kind, row, ALWAYS, BLOCK_BYTES, LEFT, MAX, MAX_ROWS, NEXT, RESOURCES, RIGHT, ROWS,
    UNTIL,
};
use rbatl_tests::random::Rng;

/// The strategic row.
pub const ROW: usize = 2;

const SEED: u64 = 0x62_656E_6368;

/// The coalitions.
const AGENTS: [(u8, &str); 3] = [(1, "one agent"), (3, "two agents"), (7, "three agents")];

pub struct Case {
    pub name: String,
    pub job: Vec<u8>,
}

impl Case {
    pub fn has_two_resources(&self) -> bool {
        self.job[RESOURCES] == 2
    }
}

/// Short plays go anywhere, steps lead to near states, and in a ring the play
/// is as long as it can be, along the sweep's order of states or against it. Max
/// is the steps, or of next the short plays, with resource 1 of that kind; to one
/// agent it would make no difference.
pub fn all() -> Vec<Case> {
    let mut cases = Vec::new();
    for (kind, word) in [(UNTIL, "until"), (ALWAYS, "always"), (NEXT, "next")] {
        for (coalition, size) in AGENTS {
            let mut add = |plays: &str, job| {
                let name = format!("{word}, {size}, {plays}");
                cases.push(Case { name, job });
            };
            let mut rng = Rng::for_case(SEED, coalition.into());
            let mut job = games::maze(&mut rng, kind, coalition, 0);
            add("short", job.clone());
            if kind != NEXT {
                job = games::maze(&mut rng, kind, coalition, 2);
                add("steps", job.clone());
                add("long", games::ring(kind, coalition, true));
                add("long back", games::ring(kind, coalition, false));
            }
            if coalition > 1 {
                job[resource_kind(1)] = MAX;
                add("max", job);
            }
        }
    }
    cases
}

/// Jobs with charges: a cradle is passed again and again, along the sweep's order of
/// states or against it, with two resources and with one; stairs have as many smallest
/// allowances as there can be; and steps, or of next short plays, have charges among the
/// costs.
pub fn charging() -> Vec<Case> {
    let mut cases = Vec::new();
    for (kind, word) in [(UNTIL, "until"), (ALWAYS, "always"), (NEXT, "next")] {
        for (coalition, size) in AGENTS {
            let mut add = |plays: &str, job| {
                let name = format!("{word}, {size}, {plays}");
                cases.push(Case { name, job });
            };
            let mut rng = Rng::for_case(!SEED, coalition.into());
            if kind == NEXT {
                add("charges", games::charged_maze(&mut rng, kind, coalition, 0));
                continue;
            }
            add("charges", games::charged_maze(&mut rng, kind, coalition, 2));
            let cradle = games::cradle_ring(kind, coalition, true);
            add("cradle", cradle.clone());
            add("cradle back", games::cradle_ring(kind, coalition, false));
            add("cradle, one", with_one_resource(cradle));
            add("stairs", games::charged_stairs(kind, coalition));
        }
    }
    cases
}

/// Jobs whose one way is as long as two stocks can make it, each charged while the other
/// is spent, along the sweep's order of states or against it.
pub fn long_ways() -> Vec<Case> {
    let mut cases = Vec::new();
    for (kind, word) in [(UNTIL, "until"), (ALWAYS, "always")] {
        for (coalition, size) in AGENTS {
            for (rising, back) in [(true, ""), (false, " back")] {
                for (swapped, first) in [(false, 0), (true, 1)] {
                    let name = format!("{word}, {size}, by {first}{back}");
                    let job = games::long_way(kind, coalition, rising, swapped);
                    cases.push(Case { name, job });
                }
            }
        }
    }
    cases
}

/// The job that sweeps were slowest at, found by random changes of a long way: they lower
/// the same ranks again and again.
pub fn found() -> Case {
    let mut job = vec![0; BLOCK_BYTES];
    assert_eq!(ffi::read(include_bytes!("../jobs/slow.job"), &mut job), 0);
    Case {
        name: "found by random changes".into(),
        job,
    }
}

/// A job of 32 rows whose last names two; the 29 between are as costly as the
/// last, which names none of them. Then the job cut down to the last row and
/// the two that it names.
pub fn crowd() -> [Vec<u8>; 2] {
    let alone = games::ring(UNTIL, 1, false);
    let mut crowd = alone.clone();
    crowd[ROWS] = MAX_ROWS as u8;
    for i in ROW + 1..MAX_ROWS {
        crowd.copy_within(row(ROW, 0)..row(ROW + 1, 0), row(i, 0));
    }
    [crowd, alone]
}

/// The job with a second strategic row in the place of a proposition, which the first
/// names: a call then labels it before.
pub fn nested(mut job: Vec<u8>) -> Vec<u8> {
    let lower = ROW - 1;
    job.copy_within(row(ROW, 0)..row(ROW + 1, 0), row(lower, 0));
    job[row(lower, LEFT)] = 0;
    job[row(lower, RIGHT)] = 0;
    job[row(ROW, LEFT)] = lower as u8;
    job
}
