//! What is written and read again, and what is read and written back.

use super::*;
use rbatl_tests::text::{self, Edition, EDITIONS, KIND_WORDS, TEXT_BYTES};
use rbatl_tests::text_damage::empty_bounds;
use rbatl_tests::{ffi, jobs};

/// The text that the library writes of a job, zeros after it.
fn written(job: &[u8], what: &str) -> Vec<u8> {
    let mut text = vec![b'#'; TEXT_BYTES];
    let length = ffi::write(job, &mut text);
    let length = usize::try_from(length).unwrap_or_else(|_| panic!("{what}: {length}"));
    assert!(text[length..].iter().all(|&byte| byte == 0), "{what}");
    text.truncate(length);
    text
}

/// The job that the library reads from a text.
fn read(text: &[u8], what: &str) -> Vec<u8> {
    let mut block = vec![b'#'; BLOCK_BYTES];
    assert_eq!(ffi::read(text, &mut block), 0, "{what}");
    block
}

/// The same job without charges and with other kinds, bit j for a resource j of kind
/// max.
fn with_kinds(job: &[u8], kinds: u8) -> Vec<u8> {
    let mut job = job.to_vec();
    take_charges(&mut job);
    for resource in 0..Sizes::of(&job).resources {
        job[resource_kind(resource)] = kinds >> resource & 1;
    }
    job
}

#[test]
fn a_written_job_is_read_as_the_same_job() {
    for case in 0..cases(CASES) / 12 {
        let what = format!("case {case}");
        let job = any_job(&mut Rng::for_case(SEED ^ 3, case));
        let text = written(&job, &what);
        assert!(text == text::write(&job), "{what}");
        assert!(read(&text, &what) == job, "{what}");
    }
}

/// A job of kind sum throughout and without charges has a text of each edition.
#[test]
fn both_editions_are_read_as_the_same_job() {
    for case in 0..cases(CASES) / 24 {
        let what = format!("case {case}");
        let job = with_kinds(&any_job(&mut Rng::for_case(SEED ^ 8, case)), 0);
        for edition in EDITIONS {
            let text = text::write_as(edition, &job);
            assert_eq!(Edition::of(&text), Some(edition), "{what}");
            assert!(read(&text, &what) == job, "{what}, {edition:?}");
            let back = written(&read(&text, &what), &what);
            assert!(back == text::write(&job), "{what}, {edition:?}");
        }
    }
}

/// Jobs that differ in kinds alone have texts that differ in the first line's words
/// alone.
#[test]
fn the_kinds_are_the_words_of_the_first_line() {
    for case in 0..cases(CASES) / 100 {
        let what = format!("case {case}");
        let job = any_job(&mut Rng::for_case(SEED ^ 9, case));
        let resources = Sizes::of(&job).resources;
        let all_sum = written(&with_kinds(&job, 0), &what);
        let line = all_sum
            .iter()
            .position(|&byte| byte == b'\n')
            .expect("a line");
        let sizes = line - resources * ",sum".len();
        for kinds in 0..1 << resources {
            let words = (0..resources).map(|j| KIND_WORDS[usize::from(kinds >> j & 1)]);
            let words: String = words.map(|word| format!(",{word}")).collect();
            let text = [&all_sum[..sizes], words.as_bytes(), &all_sum[line..]].concat();
            assert!(
                written(&with_kinds(&job, kinds), &what) == text,
                "{what}{words}"
            );
            assert!(
                read(&text, &what) == with_kinds(&job, kinds),
                "{what}{words}"
            );
        }
    }
}

/// An empty bound comes back as 0; every other byte as it was, in edition 2.
#[test]
fn a_text_is_written_back_with_0_for_empty_bounds() {
    for case in 0..cases(CASES) / 12 {
        let what = format!("case {case}");
        let mut rng = Rng::for_case(SEED ^ 4, case);
        let (job, whole) = job_and_text(&mut rng);
        let (emptied, _) = empty_bounds(&mut rng, &whole);
        for text in [&whole, &emptied] {
            assert!(
                written(&read(text, &what), &what) == text::write(&job),
                "{what}"
            );
        }
    }
}

/// A file of edition 2 is written back, and one of edition 1 in edition 2.
#[test]
fn the_files_of_jobs_are_written_back() {
    for name in jobs::names() {
        let text = jobs::text(&name);
        let back = written(&read(&text, &name), &name);
        assert!(back == text::write(&jobs::load(&name)), "{name}");
        let second = Edition::of(&text) == Some(Edition::Two);
        assert_eq!(back == text, second, "{name}");
    }
}

fn longest_is_read(edition: Edition, job: &[u8]) {
    let text = text::write_as(edition, job);
    println!("the longest text, {edition:?}, has {} bytes", text.len());
    assert!(text.len() <= TEXT_BYTES, "{edition:?}");
    assert!(read(&text, "the longest text") == job, "{edition:?}");
}

/// The longest text that a job can have: full size, and in each place the
/// value whose spelling is longest.
#[test]
fn the_longest_text_fits() {
    let mut job = vec![0; BLOCK_BYTES];
    Sizes::FULL.store(&mut job);
    for state in 0..MAX_STATES {
        job[mask(state)] = 255;
        for agent in 0..MAX_AGENTS {
            job[count(state, agent)] = MAX_ACTIONS as u8;
            let costs = cost(state, agent, 1, 0)..cost(state, agent, MAX_ACTIONS, 0);
            job[costs].fill(MAX_COST);
        }
        job[next(state, 0)..next(state + 1, 0)].fill(MAX_STATES as u8 - 1);
    }
    for i in 1..MAX_ROWS {
        let longest = [UNTIL, i as u8 - 1, i as u8 - 1, 7, UNLIMITED, UNLIMITED];
        job[row(i, KIND)..row(i, PADDING)].copy_from_slice(&longest);
    }
    longest_is_read(Edition::One, &job);
    for (place, _) in cost_places(&job.clone()) {
        job[place] = cost_byte(-i32::from(MAX_COST));
    }
    longest_is_read(Edition::Two, &job);
    let text = written(&job, "the longest text");
    assert!(text == text::write(&job));
    for case in 0..1000 {
        let other = block(&mut Rng::for_case(SEED ^ 5, case), Sizes::FULL);
        assert!(text::write(&other).len() <= text.len(), "case {case}");
    }
}
