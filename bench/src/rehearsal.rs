//! A rehearsal with the longest script, in which nobody replies with more than idling,
//! beside one single move at its start.

use crate::cases::{self, Case, ROW};
use crate::{consume, stack, timing, Buffers};
use rbatl_tests::layout::{MAX_BOUND, MAX_STATES};
use rbatl_tests::model::{At, Model, REPORT_BYTES, ROOM_BYTES, SCRIPT_BYTES};

const SCRIPT: [u8; SCRIPT_BYTES] = [0; SCRIPT_BYTES];

/// The times of a rehearsal and of a single move, and the moves of the rehearsal; none
/// if the coalition wins nowhere.
struct Times {
    rehearsal: f64,
    single: f64,
    moves: Option<u8>,
}

/// The moves that a rehearsal from the state has; none if it is refused.
fn moves(buffers: &mut Buffers, job: &[u8], state: u8) -> Option<u8> {
    (buffers.rehearse(job, state, &SCRIPT) == 0).then(|| buffers.report[1])
}

/// The state with the longest rehearsal.
fn start(job: &[u8]) -> u8 {
    let mut buffers = Buffers::new();
    let longest = (0..MAX_STATES as u8).max_by_key(|&state| moves(&mut buffers, job, state));
    longest.expect("a state")
}

/// The report must be the second implementation's.
fn measure(case: &Case) -> Times {
    let (job, state) = (&case.job, start(&case.job));
    let (mut first, mut second) = (Buffers::new(), Buffers::new());
    let (mut report, mut room) = (vec![0; REPORT_BYTES], vec![0; ROOM_BYTES]);
    let due = Model::of(job).rehearse(ROW as u8, state, &SCRIPT, &mut report, &mut room);
    let found = first.rehearse(job, state, &SCRIPT);
    assert!(found == due && first.report == report, "{}", case.name);
    let at = At {
        row: ROW as u8,
        state,
        stock: [MAX_BOUND; 2],
    };
    let moves = moves(&mut first, job, state);
    let [rehearsal, single] = timing::best_of([
        &mut || consume(first.rehearse(job, state, &SCRIPT)),
        &mut || second.coalition_move(job, at),
    ]);
    Times {
        rehearsal,
        single,
        moves,
    }
}

/// The stack of the longest rehearsal.
pub fn stack(job: &[u8]) -> usize {
    let (mut buffers, state) = (Buffers::new(), start(job));
    stack::used(|| consume(buffers.rehearse(job, state, &SCRIPT)))
}

pub fn print() {
    println!();
    println!("rehearsal: with a script of 255 replies 0, from the state where it is longest, or");
    println!("        refused if the row is true nowhere; /move: its ratio to one single move at");
    println!("        its start; moves: those that are made.");
    println!();
    println!(
        "{:30} {:>9} {:>8} {:>6}",
        "case", "rehearsal", "/move", "moves"
    );
    let mut largest = 0.0f64;
    let charging = cases::charging()
        .into_iter()
        .filter(Case::has_two_resources);
    for case in cases::all().into_iter().chain(charging) {
        let times = measure(&case);
        let ratio = times.rehearsal / times.single;
        let moves = times.moves.map_or("none".into(), |moves| moves.to_string());
        println!(
            "{:30} {:9.3} {ratio:8.2} {moves:>6}",
            case.name,
            1e3 * times.rehearsal
        );
        largest = largest.max(ratio);
    }
    println!();
    println!("largest ratio of a rehearsal to one move: {largest:.2}");
}
