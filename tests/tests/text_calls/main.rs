//! `rbatl_read`, `rbatl_read_at`, `rbatl_write` and `rbatl_list` beside the reader,
//! the writer and the listing made from documents 01 and 02: the same answers and
//! the same lent buffers afterwards, on many blocks and on texts of both editions.

mod empty;
mod every;
mod lengths;
mod listings;
mod random;
mod round;
mod stops;

use rbatl_tests::answers::{assert_each_came, assert_none_came, number, Counts};
use rbatl_tests::layout::*;
use rbatl_tests::random::{any_sizes, any_text, block, cases, small_sizes, take_charges, Rng};

const SEED: u64 = 0x7465_7874;
/// Damaged texts; the other tests take a share of this number.
const CASES: u64 = 120_000;

/// A job, mostly small: a damage to its text then lies near the borders.
fn any_job(rng: &mut Rng) -> Vec<u8> {
    let sizes = match rng.below(32) {
        0 => Sizes::FULL,
        1..=4 => any_sizes(rng),
        _ => small_sizes(rng),
    };
    block(rng, sizes)
}

/// Such a job, and its text in either edition.
fn job_and_text(rng: &mut Rng) -> (Vec<u8>, Vec<u8>) {
    let mut job = any_job(rng);
    let text = any_text(rng, &mut job);
    (job, text)
}
