//! Smallest allowances put into the text of their job: the listing then has the state
//! in the row's set, and with one less in either number it does not. The library is
//! asked alone, without the checker.

use super::*;
use rbatl_tests::ffi;
use rbatl_tests::layout::*;
use rbatl_tests::listing::LISTING_BYTES;
use rbatl_tests::model::{MOVES_BYTES, RANKS_BYTES};
use rbatl_tests::random::{any_text, cases};

const SEED: u64 = 0x6361_7264;
const CASES: u64 = 1_000;

/// A job as a text, and as the block that this means.
struct Job {
    text: String,
    block: Vec<u8>,
}

impl Job {
    /// The text with these bounds in the row's line; the rows are the last lines.
    fn with(&self, i: u8, bounds: [u8; 2]) -> String {
        let sizes = Sizes::of(&self.block);
        let mut lines: Vec<String> = self.text.lines().map(String::from).collect();
        let line = lines.len() - sizes.rows + usize::from(i);
        let mut fields: Vec<String> = lines[line].split(',').map(String::from).collect();
        for (resource, bound) in bounds.into_iter().enumerate().take(sizes.resources) {
            fields[2 + resource] = match bound {
                UNLIMITED => "inf".to_string(),
                bound => bound.to_string(),
            };
        }
        lines[line] = fields.join(",");
        lines.join("\n") + "\n"
    }

    /// Whether the listing of the text with these bounds has the state in the row's
    /// set.
    fn lists(&self, i: u8, state: u8, bounds: [u8; 2]) -> bool {
        let text = self.with(i, bounds);
        let [mut listing, mut ranks, mut moves] =
            [LISTING_BYTES, RANKS_BYTES, MOVES_BYTES].map(|length| vec![0; length]);
        let length = ffi::list(text.as_bytes(), &mut listing, &mut ranks, &mut moves);
        listing.truncate(usize::try_from(length).expect("a text that passes"));
        let listing = String::from_utf8(listing).expect("plain text");
        let start = format!("set,{i},");
        let mut sets = listing.lines().filter_map(|line| line.strip_prefix(&start));
        let (_, word) = sets
            .next()
            .and_then(|set| set.split_once(','))
            .expect("a set");
        word.parse::<u32>().expect("a word") >> state & 1 == 1
    }

    fn bounds(&self, i: u8) -> [u8; 2] {
        [0, 1].map(|j| self.block[row(i.into(), BOUND + j)])
    }

    /// What the library lists for the state.
    fn allowances(&self, i: u8, state: u8) -> Vec<[u8; 2]> {
        let (mut list, mut room) = ([0; ALLOWANCES_BYTES], ZEROS);
        let count = ffi::allowances(&self.block, i, state, &mut list, &mut room);
        let pairs = list.chunks(2).map(|pair| [pair[0], pair[1]]);
        pairs
            .take(usize::try_from(count).expect("a count"))
            .collect()
    }
}

/// Numbers made one smaller, and allowances as large as they can be that are not
/// enough.
#[derive(Default)]
struct Seen {
    smaller: [u64; 2],
    in_vain: u64,
}

impl Seen {
    fn state(&mut self, job: &Job, i: u8, state: u8, what: &str) {
        let what = format!("row {i}, state {state} of {what}");
        let pairs = job.allowances(i, state);
        for &pair in &pairs {
            assert!(job.lists(i, state, pair), "{pair:?}, {what}");
            for (j, seen) in self.smaller.iter_mut().enumerate() {
                if ![0, UNLIMITED].contains(&pair[j]) {
                    let mut less = pair;
                    less[j] -= 1;
                    assert!(!job.lists(i, state, less), "{less:?}, {what}");
                    *seen += 1;
                }
            }
        }
        if pairs.is_empty() {
            let most = job.bounds(i).map(|bound| bound.max(MAX_BOUND));
            assert!(!job.lists(i, state, most), "{most:?}, {what}");
            self.in_vain += 1;
        }
    }
}

#[test]
fn put_into_the_job() {
    let mut seen = Seen::default();
    for case in 0..cases(CASES) {
        let rng = &mut Rng::for_case(SEED, case);
        let mut block = match case % 4 {
            0 => games::charged(rng, games::trade),
            1 => games::cradle(rng),
            _ => games::trade(rng),
        };
        let text = String::from_utf8(any_text(rng, &mut block)).expect("plain text");
        let rows = Model::of(&block).rows();
        let job = Job { text, block };
        for i in rows {
            for state in 0..Sizes::of(&job.block).states as u8 {
                seen.state(&job, i, state, &format!("case {case}"));
            }
        }
    }
    let least = cases(CASES) / 2;
    assert!(
        seen.smaller.iter().all(|&count| count > least),
        "{:?}",
        seen.smaller
    );
    assert!(seen.in_vain > least, "{}", seen.in_vain);
}
