//! The smallest allowances for a state beside the row's table with bounds 15 and 15,
//! of jobs with two resources and with one. With charges that table does not tell them:
//! there, beside the same walk in Rust, which solves the row for each pair that it tries.

use crate::cases::{self, Case, ROW};
use crate::sweeps::{Order, Sweeper};
use crate::{consume, timing, Buffers};
use rbatl_tests::checker::allowances::{Pair, Trials};
use rbatl_tests::checker::NEVER;
use rbatl_tests::jobs::with_one_resource;
use rbatl_tests::layout::*;

/// Stocks, or bounds that are tried, of a resource.
const STOCKS: usize = MAX_BOUND as usize + 1;

/// The times of the call and of the table, and the most allowances of a state.
struct Times {
    needs: f64,
    table: f64,
    most: usize,
}

/// The job with other bounds in the row, of as many resources as it has.
fn with_bounds(job: &[u8], bound: u8) -> Vec<u8> {
    let mut job = job.to_vec();
    for resource in 0..Sizes::of(&job).resources {
        job[row(ROW, BOUND + resource)] = bound;
    }
    job
}

/// What the table says of every stock as bound: each pair, and the states that it is
/// enough for.
fn trials(job: &[u8], ranks: &[u8]) -> Trials {
    let (always, sizes) = (job[row(ROW, KIND)] == ALWAYS, Sizes::of(job));
    let seconds = if sizes.resources == 1 { 1 } else { STOCKS };
    let wins = |place: usize, state: usize| {
        let word = 2 * (state * STOCKS * seconds + place);
        (u16::from_le_bytes([ranks[word], ranks[word + 1]]) == NEVER) == always
    };
    let trial = |place: usize| {
        let pair: Pair = [place / seconds, place % seconds].map(|bound| bound as u8);
        let states = (0..sizes.states).filter(|&state| wins(place, state));
        (pair, states.map(|state| 1 << state).sum())
    };
    Trials((0..STOCKS * seconds).map(trial).collect())
}

/// The state with the most allowances is timed. The row of the call has bounds 0, so
/// that its range is not the table's by chance; the lists must be the table's.
fn measure(job: &[u8]) -> Times {
    let (mut first, mut second) = (Buffers::new(), Buffers::new());
    let [bare, full] = [0, MAX_BOUND].map(|bound| with_bounds(job, bound));
    second.table(&full);
    let trials = trials(&full, &second.ranks);
    let count = |state: &usize| trials.smallest(*state).len();
    for state in 0..MAX_STATES {
        let found = first.allowances(&bare, state as u8);
        let due = trials.smallest(state).concat();
        assert!(found == count(&state) && first.allowances[..due.len()] == due);
    }
    let state = (0..MAX_STATES).max_by_key(count).expect("a state");
    let [needs, table] = timing::best_of([
        &mut || consume(first.allowances(&bare, state as u8)),
        &mut || second.table(&full),
    ]);
    Times {
        needs,
        table,
        most: count(&state),
    }
}

pub fn print() {
    println!();
    println!("needs:  the smallest allowances for a state, with bounds 0 in the row; /table: its");
    println!(
        "        ratio to the row's table with bounds 15, at most 1.3; most: of a state. First"
    );
    println!("        with two resources, then with one.");
    println!();
    print!("{:30}", "case");
    println!(
        "{}",
        format!(" {:>9} {:>8} {:>5}", "needs", "/table", "most").repeat(2)
    );
    let mut largest = [0.0f64; 2];
    for case in cases::all() {
        print!("{:30}", case.name);
        let jobs = [case.job.clone(), with_one_resource(case.job)];
        for (job, largest) in jobs.iter().zip(&mut largest) {
            let Times { needs, table, most } = measure(job);
            let ratio = needs / table;
            print!(" {:9.3} {ratio:8.2} {most:5}", 1e3 * needs);
            *largest = largest.max(ratio);
        }
        println!();
    }
    let [two, one] = largest;
    println!();
    println!("largest ratio of allowances to a table: two resources {two:.2}, one {one:.2}");
    print_charging();
}

/// The states for which a pair of bounds is enough, by a solution of its own.
fn enough(job: &[u8], pair: Pair) -> u32 {
    let mut job = job.to_vec();
    job[row(ROW, BOUND)..row(ROW, PADDING)].copy_from_slice(&pair);
    Sweeper::of(&job).set(Order::Places)
}

/// The allowances of a state, and how many pairs were tried: with the first bound
/// rising, the second falls for as long as one less is enough.
fn walk(job: &[u8], state: usize) -> (Vec<Pair>, usize) {
    let seconds = if Sizes::of(job).resources == 1 {
        1
    } else {
        STOCKS
    };
    let (mut pairs, mut tried, mut least) = (Vec::new(), 0, seconds as u8);
    for first in 0..=MAX_BOUND {
        let before = least;
        while least > 0 {
            tried += 1;
            if enough(job, [first, least - 1]) >> state & 1 == 0 {
                break;
            }
            least -= 1;
        }
        if least < before {
            pairs.push([first, least]);
        }
        if least == 0 {
            break;
        }
    }
    (pairs, tried)
}

/// All pairs, each with the states that it is enough for.
fn all_trials(job: &[u8]) -> Trials {
    let seconds = if Sizes::of(job).resources == 1 {
        1
    } else {
        STOCKS
    };
    let pair = |place: usize| [place / seconds, place % seconds].map(|bound| bound as u8);
    let pairs = (0..STOCKS * seconds).map(pair);
    Trials(pairs.map(|pair| (pair, enough(job, pair))).collect())
}

/// The time of the call and of the walk, for the state for which most pairs are tried,
/// how many these are, and the state's allowances. The lists must be those of all pairs,
/// and so must the walk's be.
fn measure_charging(case: &Case) -> (f64, f64, usize, usize) {
    let job = with_bounds(&case.job, 0);
    let (mut buffers, trials) = (Buffers::new(), all_trials(&job));
    let walks = Vec::from_iter((0..MAX_STATES).map(|state| walk(&job, state)));
    for (state, (pairs, _)) in walks.iter().enumerate() {
        let due = trials.smallest(state);
        let found = buffers.allowances(&job, state as u8);
        let listed = &buffers.allowances[..2 * due.len()];
        let same = found == due.len() && listed == due.concat() && *pairs == due;
        assert!(same, "{}: allowances of state {state}", case.name);
    }
    let state = (0..MAX_STATES).max_by_key(|&state| walks[state].1);
    let state = state.expect("a state");
    let [needs, rust] = timing::best_of([
        &mut || consume(buffers.allowances(&job, state as u8)),
        &mut || consume(walk(&job, state)),
    ]);
    let (pairs, tried) = &walks[state];
    (needs, rust, *tried, pairs.len())
}

const LEGEND: &str = "
needs:  with charges; /walk: its ratio to the same walk in Rust, at most 1.1; tried: pairs of
        bounds, for each of which the row is solved; most: allowances of the state.
";

fn print_charging() {
    println!("{LEGEND}");
    let [needs, walk, tried, most] = ["needs", "/walk", "tried", "most"];
    println!("{:32} {needs:>9} {walk:>8} {tried:>5} {most:>5}", "case");
    let mut largest = 0.0f64;
    for case in cases::charging() {
        let (needs, rust, tried, most) = measure_charging(&case);
        let (needs, ratio) = (1e3 * needs, needs / rust);
        println!(
            "{:32} {needs:9.3} {ratio:8.2} {tried:5} {most:5}",
            case.name
        );
        largest = largest.max(ratio);
    }
    println!();
    println!("largest ratio of allowances with charges to the walk: {largest:.2}");
}
