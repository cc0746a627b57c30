//! Random texts and blocks, whole and damaged.

use super::*;
use rbatl_tests::text::{self, Edition, TEXT_BYTES};
use rbatl_tests::text_damage::{damage, empty_bounds, filled_bounds};
use rbatl_tests::{agree, block, damage as block_damage, ffi};

#[test]
fn read_agrees_on_whole_texts() {
    let lent = agree::pattern(BLOCK_BYTES);
    let mut emptied = 0;
    for case in 0..cases(CASES) / 10 {
        let mut rng = Rng::for_case(SEED, case);
        let (job, written) = job_and_text(&mut rng);
        let (other, count) = empty_bounds(&mut rng, &written);
        for text in [&written, &other] {
            let outcome = agree::read(text, &lent, || format!("case {case}"));
            assert_eq!(outcome.answer, 0, "case {case}");
            assert!(outcome.buffer == job, "case {case}");
        }
        emptied += u64::from(count > 0);
    }
    let least = cases(CASES) / 50;
    assert!(emptied >= least, "only {emptied} texts with empty bounds");
}

#[test]
fn read_agrees_on_damaged_texts() {
    let lent = agree::pattern(BLOCK_BYTES);
    let cases = cases(CASES);
    let mut seen = [Counts::default(); 2];
    for case in 0..cases {
        let mut rng = Rng::for_case(!SEED, case);
        let (_, written) = job_and_text(&mut rng);
        let edition = Edition::of(&written).expect("a whole text");
        let (mut text, _) = empty_bounds(&mut rng, &written);
        let how = damage(&mut rng, &mut text);
        let outcome = agree::read(&text, &lent, || format!("case {case}: {how}"));
        seen[edition as usize][number(outcome.answer)] += 1;
        if outcome.answer == 0 {
            assert_written_back(&outcome.buffer, &text, &format!("case {case}: {how}"));
        } else {
            assert!(outcome.buffer == lent, "case {case}: {how}");
        }
    }
    for seen in seen {
        assert_each_came(&seen, &[0, 2, 3, 4, 5, 7], cases / 150);
        assert_none_came(&seen, &[1, 6, 8, 9, 10, 11, 12]);
    }
    let [_, second] = seen;
    assert_each_came(&second, &[13], cases / 500);
}

/// Any text that was read, damaged or not, is that of a job that passes, in its
/// edition and up to its empty bounds; the library writes edition 2 of it.
fn assert_written_back(job: &[u8], text: &[u8], what: &str) {
    assert_eq!(block::check(job), 0, "{what}");
    assert_eq!(ffi::check(job), 0, "{what}");
    let edition = Edition::of(text).expect("a text that is read");
    let same = text::write_as(edition, job) == filled_bounds(text, b"0");
    assert!(same, "{what}");
    let mut written = vec![b'#'; TEXT_BYTES];
    let length = ffi::write(job, &mut written);
    let expected = text::write(job);
    assert_eq!(usize::try_from(length), Ok(expected.len()), "{what}");
    assert!(written[..expected.len()] == expected, "{what}");
}

#[test]
fn write_agrees_on_blocks() {
    let lent = agree::pattern(TEXT_BYTES);
    let cases = cases(CASES) / 3;
    let mut seen = Counts::default();
    for case in 0..cases {
        let mut rng = Rng::for_case(SEED ^ 1, case);
        let mut job = any_job(&mut rng);
        let how = block_damage::damage(&mut rng, &mut job);
        let outcome = agree::write(&job, &lent, || format!("case {case}, damage: {how}"));
        seen[number(outcome.answer)] += 1;
        if outcome.answer < 0 {
            assert!(outcome.buffer == lent, "case {case}, damage: {how}");
        }
    }
    assert_each_came(&seen, &[0, 1, 2, 3, 4, 5, 6], cases / 50);
    assert_each_came(&seen, &[13], cases / 200);
    assert_none_came(&seen, &[7, 8, 9, 10, 11, 12]);
}
