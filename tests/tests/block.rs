//! `rbatl_check` against the check made from document 01, on many blocks.

use rbatl_tests::answers::{assert_each_came, assert_none_came, Counts};
use rbatl_tests::damage::damage;
use rbatl_tests::random::{any_block, cases, Rng};
use rbatl_tests::{block, ffi, jobs, layout};

const SEED: u64 = 0x7160_4B65_7761;
const CASES: u64 = 100_000;

/// The number that both checks give; `what` names the block if they differ.
fn agreed(bytes: &[u8], what: impl Fn() -> String) -> usize {
    let expected = block::check(bytes);
    let answer = ffi::check(bytes);
    assert_eq!(
        answer,
        -i32::from(expected),
        "rbatl_check differs on {}",
        what()
    );
    expected.into()
}

#[test]
fn agrees_on_whole_jobs() {
    for case in 0..cases(CASES) / 10 {
        let bytes = any_block(&mut Rng::for_case(SEED, case));
        let number = agreed(&bytes, || format!("case {case}"));
        assert_eq!(number, 0, "a random job must pass: case {case}");
    }
}

#[test]
fn agrees_on_damaged_jobs() {
    let cases = cases(CASES);
    let mut seen = Counts::default();
    for case in 0..cases {
        let mut rng = Rng::for_case(!SEED, case);
        let mut bytes = any_block(&mut rng);
        let how = damage(&mut rng, &mut bytes);
        seen[agreed(&bytes, || format!("case {case}, damage: {how}"))] += 1;
    }
    assert_each_came(&seen, &[0, 1, 2, 3, 4, 5, 6], cases / 40);
    assert_each_came(&seen, &[13], cases / 200);
    assert_none_came(&seen, &[7, 8, 9, 10, 11, 12]);
}

/// Every place and every value of every job in jobs/: none of their borders is
/// left out.
#[test]
fn agrees_on_every_changed_byte() {
    for name in jobs::names() {
        let job = jobs::load(&name);
        for place in 0..layout::BLOCK_BYTES {
            let mut bytes = job.clone();
            for value in 0..=u8::MAX {
                bytes[place] = value;
                agreed(&bytes, || format!("{name} with byte {place} = {value}"));
            }
        }
    }
}

#[test]
fn agrees_on_every_length() {
    let job = jobs::load("catch.job");
    for length in 0..=2 * layout::BLOCK_BYTES {
        let mut bytes = job.clone();
        bytes.resize(length, 0);
        let number = agreed(&bytes, || format!("Catch of length {length}"));
        assert_eq!(number, usize::from(length != layout::BLOCK_BYTES));
    }
}
