//! Listings beside those of the second implementation.

use super::printed;
use rbatl_tests::games;
use rbatl_tests::listing::{listing, try_damaged_texts, try_job_files, try_random_jobs};
use rbatl_tests::random::{any_text, cases, Rng};

const SEED: u64 = 71;

/// Whether the text is listed, and not refused.
fn agree(text: &[u8], what: &str) -> bool {
    let expected = String::from_utf8(listing(text)).expect("plain text");
    assert_eq!(printed(text), expected, "{what}");
    expected.starts_with("list,")
}

#[test]
fn the_job_files() {
    try_job_files(agree);
}

#[test]
fn jobs_of_every_size() {
    try_random_jobs(SEED, agree);
}

#[test]
fn jobs_of_full_size() {
    for case in 0..cases(10) {
        let mut rng = Rng::for_case(SEED + 1, case);
        let mut block = games::full(&mut rng);
        assert!(agree(
            &any_text(&mut rng, &mut block),
            &format!("case {case}")
        ));
    }
}

#[test]
fn damaged_texts() {
    try_damaged_texts(SEED + 2, agree);
}

/// Both sides of the longest text.
#[test]
fn long_texts() {
    for (length, expected) in [(32_768, "refused,7\n"), (32_769, "refused,1\n")] {
        let text = vec![b'j'; length];
        assert_eq!(printed(&text), expected);
        assert_eq!(listing(&text), expected.as_bytes());
    }
}
