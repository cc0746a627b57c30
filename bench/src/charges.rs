//! Jobs with charges beside the method before stages in Rust and plain sweeps; those with a long
//! way beside the slowest job without charges too.

use crate::cases::{self, Case};
use crate::sweeps::{Order, Sweeper};
use crate::{consume, rank_beside_sweeps, timing, Buffers};
use std::hint::black_box;

/// Seconds of the table call and of the label call, and of the sweeps in Rust.
struct Times {
    calls: [f64; 2],
    sweeps: [f64; 2],
}

fn measure(job: &[u8]) -> Times {
    let (mut first, mut second) = (Buffers::new(), Buffers::new());
    let [table, label, sweeps_table, sweeps_label] = timing::best_of([
        &mut || first.table(job),
        &mut || second.label(job),
        &mut || consume(Sweeper::of(black_box(job)).table(Order::Places)),
        &mut || consume(Sweeper::of(black_box(job)).set(Order::Places)),
    ]);
    Times {
        calls: [table, label],
        sweeps: [sweeps_table, sweeps_label],
    }
}

/// Seconds of plain sweeps, which must come to the same set.
fn measure_plain(case: &Case) -> f64 {
    let sweeper = Sweeper::of(&case.job);
    let [places, plain] = [Order::Places, Order::Plain].map(|order| sweeper.set(order));
    assert_eq!(places, plain, "{}: set", case.name);
    let job = &case.job;
    let [plain] =
        timing::best_of([&mut || consume(Sweeper::of(black_box(job)).table(Order::Plain))]);
    plain
}

/// Prints the rank, the times and their ratios to the sweeps. Gives the times of the
/// calls and the larger ratio.
fn print_case(case: &Case) -> ([f64; 2], f64) {
    print!("{:32} {:5}", case.name, rank_beside_sweeps(case));
    let Times { calls, sweeps } = measure(&case.job);
    let ratios = [calls[0] / sweeps[0], calls[1] / sweeps[1]];
    for (call, ratio) in calls.into_iter().zip(ratios) {
        print!(" {:9.3} {ratio:8.2}", 1e3 * call);
    }
    (calls, ratios[0].max(ratios[1]))
}

fn print_head(name: &str, last: &str) {
    print!("\n{name:32} {:>5}", "rank");
    for call in ["table", "label"] {
        print!(" {call:>9} {:>8}", "/sweeps");
    }
    println!(" {last:>8}");
}

const LEGEND: &str = "
With charges: /sweeps and /plain as above, the former at most 1.0. A cradle is passed for
        each unit of both resources, or of one. A long way goes round for every unit of one
        resource for every unit of the other; /slowest: its ratio to the slowest job without
        charges, at most 20.";

/// Plain sweeps of a long way would take seconds, and are left out.
pub fn print(slowest: f64) {
    println!("{LEGEND}");
    print_head("with charges", "/plain");
    let mut largest = 0.0f64;
    for case in cases::charging() {
        let (calls, ratio) = print_case(&case);
        println!(" {:8.2}", calls[0] / measure_plain(&case));
        largest = largest.max(ratio);
    }
    print_head("a long way", "/slowest");
    let mut longest = 0.0f64;
    for case in cases::long_ways().into_iter().chain([cases::found()]) {
        let (calls, ratio) = print_case(&case);
        let times = calls[0].max(calls[1]) / slowest;
        println!(" {times:8.2}");
        (largest, longest) = (largest.max(ratio), longest.max(times));
    }
    println!();
    println!("largest ratio to the sweeps with charges: {largest:.2}");
    println!("largest ratio of a long way to the slowest without charges: {longest:.2}");
}
