//! The listing call and what the listing program prints (document 01, "The job
//! Catch"), by the checker's search on positions alone.

use crate::checker::search;
use crate::checker::structure::{contains, Structure};
use crate::model::{MOVES_BYTES, RANKS_BYTES};
use crate::random::{any_text, cases, Rng};
use crate::text::TEXT_BYTES;
use crate::{games, jobs, refusal, text, text_damage};

/// The listing of a text, or `refused,` and the number.
pub fn listing(job: &[u8]) -> Vec<u8> {
    let listing = match text::read(job) {
        Ok(block) => of_block(&block),
        Err(number) => format!("refused,{number}\n"),
    };
    listing.into_bytes()
}

pub const LISTING_BYTES: usize = TEXT_BYTES;

/// The listing call: the length of the listing, zeros after it, or minus the
/// refusal number. A refusal leaves the listing as it was; ranks and moves hold
/// zeros afterwards, unless a length is wrong.
pub fn list_call(job: &[u8], listing: &mut [u8], ranks: &mut [u8], moves: &mut [u8]) -> i32 {
    let lengths = [listing.len(), ranks.len(), moves.len()];
    if lengths != [LISTING_BYTES, RANKS_BYTES, MOVES_BYTES] || job.len() > TEXT_BYTES {
        return -i32::from(refusal::LENGTH);
    }
    ranks.fill(0);
    moves.fill(0);
    match text::read(job) {
        Ok(block) => {
            let lines = of_block(&block).into_bytes();
            let (front, rest) = listing.split_at_mut(lines.len());
            front.copy_from_slice(&lines);
            rest.fill(0);
            lines.len() as i32
        }
        Err(number) => -i32::from(number),
    }
}

/// The listing of a block that the check lets pass.
fn of_block(block: &[u8]) -> String {
    let structure = Structure::of(block);
    let sets = search::label(&structure);
    let mut lines = vec![format!("list,{}", sets.len())];
    for (row, &set) in sets.iter().enumerate() {
        lines.push(format!("set,{row},{},{set}", set.count_ones()));
        let Some(table) = search::table(&structure, row, &sets) else {
            continue;
        };
        for state in (0..structure.states).filter(|&state| contains(set, state)) {
            let position = table.full_stock(state);
            let (rank, mv) = (table.ranks[position], table.moves[position]);
            lines.push(format!("plan,{row},{state},{rank},{mv}"));
        }
    }
    lines.iter().map(|line| format!("{line}\n")).collect()
}

/// Tries `agree` on the job files. It compares a program with the listing of a
/// text, and tells whether the text is listed and not refused.
pub fn try_job_files(agree: impl Fn(&[u8], &str) -> bool) {
    for name in jobs::names() {
        assert!(agree(&jobs::text(&name), &name));
    }
}

/// The same on random jobs.
pub fn try_random_jobs(seed: u64, agree: impl Fn(&[u8], &str) -> bool) {
    for case in 0..cases(500) {
        let mut rng = Rng::for_case(seed, case);
        let mut job = games::mixed(&mut rng);
        let text = any_text(&mut rng, &mut job);
        assert!(agree(&text, &format!("case {case}")));
    }
}

/// The same on damaged texts, many of which are refused.
pub fn try_damaged_texts(seed: u64, agree: impl Fn(&[u8], &str) -> bool) {
    let mut refused = 0;
    for case in 0..cases(500) {
        let mut rng = Rng::for_case(seed, case);
        let mut job = games::small(&mut rng);
        let mut text = any_text(&mut rng, &mut job);
        let how = text_damage::damage(&mut rng, &mut text);
        refused += u64::from(!agree(&text, &format!("case {case}, {how}")));
    }
    assert!(refused > 200, "{refused}");
}
