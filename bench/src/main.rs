//! How long `rbatl_table` and `rbatl_label` take on jobs of full size (24
//! states, three agents with four actions, bounds 15 and 15), as ratios to a
//! Rust program that sweeps, as the library did before stages, to plain sweeps and to section 4 of
//! document 003; the same with charges, where that section has nothing to say; how long a
//! worksheet takes beside one move, a reply, smallest allowances
//! beside one table, and a rehearsal beside one move; what rows cost that the asked one
//! does not need; how long a text of each edition takes to read and write; and how much
//! stack every call uses.

mod cases;
mod charges;
mod needs;
mod rehearsal;
mod sheet;
mod stack;
mod sweeps;
mod texts;
mod timing;

use cases::{Case, ROW};
use rbatl_tests::checker::splits;
use rbatl_tests::checker::structure::Structure;
use rbatl_tests::ffi;
use rbatl_tests::layout::{row, BLOCK_BYTES, KIND, MAX_ROWS, NEXT};
use rbatl_tests::listing::LISTING_BYTES;
use rbatl_tests::model::{At, MOVES_BYTES, RANKS_BYTES, ROOM_BYTES, SETS_BYTES};
use rbatl_tests::model::{ALLOWANCES_BYTES, REPORT_BYTES, SHEET_POSITIONS, STATES_BYTES};
use rbatl_tests::text::{self, has_first_edition, EDITIONS};
use std::hint::black_box;
use sweeps::{Order, Sweeper};

/// State 0 with no stock, a position of every row.
const EMPTY: At = At {
    row: ROW as u8,
    state: 0,
    stock: [0, 0],
};

/// The lent buffers.
struct Buffers {
    block: Vec<u8>,
    sets: Vec<u8>,
    room: Vec<u8>,
    ranks: Vec<u8>,
    moves: Vec<u8>,
    states: Vec<u8>,
    listing: Vec<u8>,
    words: Vec<u8>,
    allowances: Vec<u8>,
    report: Vec<u8>,
}

impl Buffers {
    fn new() -> Buffers {
        Buffers {
            block: vec![0; BLOCK_BYTES],
            sets: vec![0; SETS_BYTES],
            room: vec![0; ROOM_BYTES],
            ranks: vec![0; RANKS_BYTES],
            moves: vec![0; MOVES_BYTES],
            states: vec![0; STATES_BYTES],
            listing: vec![0; LISTING_BYTES],
            words: vec![0; 2 * SHEET_POSITIONS],
            allowances: vec![0; ALLOWANCES_BYTES],
            report: vec![0; REPORT_BYTES],
        }
    }

    fn label(&mut self, job: &[u8]) {
        let answer = ffi::label(black_box(job), &mut self.sets, &mut self.room);
        assert_eq!(answer, 0);
    }

    fn table(&mut self, job: &[u8]) {
        self.table_of(job, ROW);
    }

    fn table_of(&mut self, job: &[u8], i: usize) {
        let answer = ffi::table(black_box(job), i as u8, &mut self.ranks, &mut self.moves);
        assert_eq!(answer, 0);
    }

    fn states_refusal(&mut self, job: &[u8]) {
        let answer = ffi::states_refusal(job, ROW as u8, &self.states, &mut self.room);
        assert_eq!(answer, 0);
    }

    fn states(&mut self, job: &[u8]) {
        let answer = ffi::states(job, ROW as u8, &mut self.states, &mut self.room);
        assert!(answer >= 0);
    }

    fn coalition_move(&mut self, job: &[u8], at: At) {
        black_box(ffi::coalition_move(job, at, &mut self.room));
    }

    fn worksheet(&mut self, job: &[u8], list: &[u8]) {
        let (words, room) = (&mut self.words, &mut self.room);
        let answer = ffi::worksheet(black_box(job), ROW as u8, list, words, room);
        assert_eq!(answer, 0);
    }

    fn allowances(&mut self, job: &[u8], state: u8) -> usize {
        let (list, room) = (&mut self.allowances, &mut self.room);
        let answer = ffi::allowances(black_box(job), ROW as u8, state, list, room);
        usize::try_from(answer).expect("a count")
    }

    /// The answer: 0 and a report, or a refusal.
    fn rehearse(&mut self, job: &[u8], state: u8, script: &[u8]) -> i32 {
        let (report, room) = (&mut self.report, &mut self.room);
        ffi::rehearse(black_box(job), ROW as u8, state, script, report, room)
    }

    /// The reply to idling at state 0 with no stock.
    fn reply(&mut self, job: &[u8]) {
        black_box(ffi::reply(job, EMPTY, 0, &mut self.room));
    }

    fn read(&mut self, text: &[u8]) {
        assert_eq!(ffi::read(text, &mut self.block), 0);
    }

    fn write(&mut self, job: &[u8]) {
        assert!(ffi::write(job, &mut self.listing) > 0);
    }

    fn list(&mut self, text: &[u8]) {
        let (ranks, moves) = (&mut self.ranks, &mut self.moves);
        assert!(ffi::list(text, &mut self.listing, ranks, moves) > 0);
    }
}

/// Seconds, the best of several runs, of a call and of the other programs.
struct Times {
    call: f64,
    sweeps: f64,
    plain: f64,
    splits: f64,
}

/// The times of the table call and of the label call.
fn measure(case: &Case) -> [Times; 2] {
    let job = &case.job;
    let (mut first, mut second) = (Buffers::new(), Buffers::new());
    let [table, label, sweeps_table, sweeps_label, splits_table, splits_label] = timing::best_of([
        &mut || first.table(job),
        &mut || second.label(job),
        &mut || consume(Sweeper::of(black_box(job)).table(Order::Places)),
        &mut || consume(Sweeper::of(black_box(job)).set(Order::Places)),
        &mut || splits_for_table(black_box(job)),
        &mut || consume(splits::label(&Structure::of(black_box(job)))),
    ]);
    let [plain_table, plain_label] = timing::best_of([
        &mut || consume(Sweeper::of(black_box(job)).table(Order::Plain)),
        &mut || consume(Sweeper::of(black_box(job)).set(Order::Plain)),
    ]);
    let table = Times {
        call: table,
        sweeps: sweeps_table,
        plain: plain_table,
        splits: splits_table,
    };
    let label = Times {
        call: label,
        sweeps: sweeps_label,
        plain: plain_label,
        splits: splits_label,
    };
    [table, label]
}

/// A table says of every stock what is true with it as the bound. The splits of
/// until and always go through all smaller bounds anyway; next is labelled for
/// each.
fn splits_for_table(job: &[u8]) {
    let structure = Structure::of(job);
    if job[row(ROW, KIND)] == NEXT {
        consume(splits::next_by_bounds(&structure, ROW));
    } else {
        consume(splits::label(&structure));
    }
}

/// Keeps the compiler from leaving out what nobody looks at.
fn consume<T>(result: T) {
    black_box(result);
}

/// All programs must come to the same result, or their times mean nothing. Gives the
/// largest finite rank.
fn longest_rank(case: &Case) -> u16 {
    let set = Sweeper::of(&case.job).set(Order::Places);
    assert_eq!(Sweeper::of(&case.job).set(Order::Plain), set);
    assert_eq!(splits::label(&Structure::of(&case.job))[ROW], set);
    rank_beside_sweeps(case)
}

/// Those of the library must be the sweeps'.
fn rank_beside_sweeps(case: &Case) -> u16 {
    let mut buffers = Buffers::new();
    buffers.table(&case.job);
    buffers.label(&case.job);
    let (ranks, moves) = Sweeper::of(&case.job).table(Order::Places);
    let bytes: Vec<u8> = ranks.iter().flat_map(|rank| rank.to_le_bytes()).collect();
    assert!(
        buffers.ranks[..bytes.len()] == bytes,
        "{}: ranks",
        case.name
    );
    assert!(
        buffers.moves[..moves.len()] == moves,
        "{}: moves",
        case.name
    );
    let set = Sweeper::of(&case.job).set(Order::Places);
    let stored = &buffers.sets[4 * ROW..4 * ROW + 4];
    assert_eq!(stored, set.to_le_bytes(), "{}: set", case.name);
    let finite = ranks.into_iter().filter(|&rank| rank != u16::MAX);
    finite.max().unwrap_or(0)
}

/// What the columns of the first table are.
fn print_legend() {
    println!(
        "Times in milliseconds, and as ratios to other programs that come to the same result:"
    );
    println!(
        "sweeps: the method before stages in Rust, one stock place after another, the moves of each"
    );
    println!(
        "        state worked out first; plain: sweeps over all positions until nothing changes;"
    );
    println!(
        "splits: section 4 of document 003, which gives sets alone. For the table call of a next"
    );
    println!("        row it labels the row for every stock as bound, for the label call for one.");
    println!("The rank is the largest that is finite.");
    println!(
        "sheet:  a worksheet of 64 positions over all states and stocks; won: how many of them are;"
    );
    println!("        /move: its ratio to one single move at one of them, at most 1.3; move: that");
    println!("        move; reply: the reply to idling at state 0 with no stock.");
    println!();
}

fn main() {
    print_legend();
    print!("{:30} {:>5}", "case", "rank");
    for call in ["table", "label"] {
        print!(
            " {call:>9} {:>8} {:>8} {:>8}",
            "/sweeps", "/plain", "/splits"
        );
    }
    println!(
        " {:>9} {:>8} {:>4} {:>9} {:>9}",
        "sheet", "/move", "won", "move", "reply"
    );
    let (mut largest, mut largest_sheet, mut slowest) = ([[0.0f64; 2]; 2], 0.0f64, 0.0f64);
    for case in cases::all() {
        print!("{:30} {:5}", case.name, longest_rank(&case));
        for (times, largest) in measure(&case).iter().zip(&mut largest) {
            let ratios = print_times(times);
            *largest = std::array::from_fn(|k| largest[k].max(ratios[k]));
            slowest = slowest.max(times.call);
        }
        largest_sheet = largest_sheet.max(print_sheet(&case));
    }
    println!();
    for (k, program) in ["sweeps", "splits"].into_iter().enumerate() {
        let [table, label] = largest.map(|ratios| ratios[k]);
        println!("largest ratio to the {program}: table {table:.2}, label {label:.2}");
    }
    println!("largest ratio of a sheet to one move: {largest_sheet:.2}");
    charges::print(slowest);
    needs::print();
    rehearsal::print();
    print_crowd();
    texts::print();
    print_stack();
}

/// Rows that the asked one does not need cost next to nothing: the ratio is to
/// be at most 1.1.
fn print_crowd() {
    let [crowd, alone] = cases::crowd();
    let (mut first, mut second) = (Buffers::new(), Buffers::new());
    let [crowded, uncrowded] =
        timing::best_of([&mut || first.table_of(&crowd, MAX_ROWS - 1), &mut || {
            second.table(&alone)
        }]);
    assert!(first.ranks == second.ranks && first.moves == second.moves);
    println!(
        "table of the last of 32 rows, which names two: {:.3}, ratio to these alone: {:.2}",
        1e3 * crowded,
        crowded / uncrowded
    );
}

/// Gives the ratios to the sweeps and to the splits.
fn print_times(times: &Times) -> [f64; 2] {
    let ratios = [times.sweeps, times.plain, times.splits].map(|time| times.call / time);
    let [sweeps, plain, splits] = ratios;
    print!(
        " {:9.3} {sweeps:8.2} {plain:8.2} {splits:8.2}",
        1e3 * times.call
    );
    [sweeps, splits]
}

/// Gives the ratio of a worksheet to one move.
fn print_sheet(case: &Case) -> f64 {
    let times = sheet::measure(case);
    let ratio = times.sheet / times.single;
    let [sheet, single, reply] = [times.sheet, times.single, times.reply].map(|time| 1e3 * time);
    let won = times.won;
    println!(" {sheet:9.3} {ratio:8.2} {won:4} {single:9.3} {reply:9.3}");
    ratio
}

/// The texts of a job: in both editions, if it has them.
fn texts_of(job: &[u8]) -> Vec<Vec<u8>> {
    match has_first_edition(job) {
        true => EDITIONS.map(|edition| text::write_as(edition, job)).into(),
        false => vec![text::write(job)],
    }
}

/// The stack that each call takes on a job.
fn stacks(job: &[u8]) -> Vec<(&'static str, usize)> {
    let (mut buffers, texts, list) = (Buffers::new(), texts_of(job), sheet::list());
    let of_texts = |call: &mut dyn FnMut(&[u8])| {
        let used = texts.iter().map(|text| stack::used(|| call(text)));
        used.max().unwrap_or(0)
    };
    vec![
        ("check", stack::used(|| consume(ffi::check(job)))),
        ("read", of_texts(&mut |text| buffers.read(text))),
        ("read_at", of_texts(&mut |text| consume(ffi::read_at(text)))),
        ("write", stack::used(|| buffers.write(job))),
        ("label", stack::used(|| buffers.label(job))),
        ("table", stack::used(|| buffers.table(job))),
        ("move", stack::used(|| buffers.coalition_move(job, EMPTY))),
        ("reply", stack::used(|| buffers.reply(job))),
        ("worksheet", stack::used(|| buffers.worksheet(job, &list))),
        (
            "allowances",
            stack::used(|| consume(buffers.allowances(job, 0))),
        ),
        ("rehearse", rehearsal::stack(job)),
        ("states", stack::used(|| buffers.states(job))),
        (
            "states_refusal",
            stack::used(|| buffers.states_refusal(job)),
        ),
        ("list", of_texts(&mut |text| buffers.list(text))),
    ]
}

/// The most that each call takes over all jobs.
fn print_stack() {
    let mut largest: Vec<(&str, usize)> = Vec::new();
    let charging = cases::charging().into_iter().chain(cases::long_ways());
    let jobs = cases::all()
        .into_iter()
        .chain(charging)
        .map(|case| case.job);
    for job in jobs.flat_map(|job| [job.clone(), cases::nested(job)]) {
        let stacks = stacks(&job);
        largest.resize(stacks.len(), ("", 0));
        for (most, used) in largest.iter_mut().zip(stacks) {
            *most = (used.0, most.1.max(used.1));
        }
    }
    println!("largest stack in bytes, the caller's frame included:");
    let each = largest
        .iter()
        .map(|(name, bytes)| format!("{name} {bytes}"));
    println!("{}", Vec::from_iter(each).join(", "));
}
