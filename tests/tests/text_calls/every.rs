//! Every single damage of one kind to the text of a job.

use super::*;
use rbatl_tests::text_damage::lines;
use rbatl_tests::{agree, jobs};

/// A job with charges of one, two and both agents, and a resource that has none.
const CHARGED: &str = "\
job2,2,2,3,1,4,sum,max
state,0,0
acts,0,0,3,0,0,-3,2,5,0
acts,0,1,2,0,0,-15,15
go,0,0,1,2,0,1,2
state,1,0
acts,1,0,2,0,0,-1,0
acts,1,1,1,0,0
go,1,0,0
state,2,1
acts,2,0,1,0,0
acts,2,1,2,0,0,-10,0
go,2,2,2
prop,0
not,0
until,1,5,0,1,0
always,3,inf,2,1
";

/// The texts that are small enough for every change of a byte.
fn small_texts() -> Vec<(&'static str, Vec<u8>)> {
    let files = ["catch.job", "minutes.job", "sensor.job"];
    let mut texts = Vec::from(files.map(|name| (name, jobs::text(name))));
    texts.push(("a job with charges", CHARGED.into()));
    texts
}

/// The texts of jobs/, and of some small random jobs.
fn many_texts() -> Vec<Vec<u8>> {
    let mut texts: Vec<Vec<u8>> = jobs::names().iter().map(|name| jobs::text(name)).collect();
    texts.push(CHARGED.into());
    for case in 0..40 {
        let mut rng = Rng::for_case(SEED ^ 2, case);
        let sizes = small_sizes(&mut rng);
        let mut job = block(&mut rng, sizes);
        texts.push(any_text(&mut rng, &mut job));
    }
    texts
}

/// What reading gives, compared with the reader of document 01.
fn answer(text: &[u8], lent: &[u8], what: impl Fn() -> String) -> usize {
    number(agree::read(text, lent, what).answer)
}

/// The rest of the text stands behind the part that is lent: a reader that
/// looks beyond the length would take it in.
#[test]
fn cut_at_every_length() {
    let lent = agree::pattern(BLOCK_BYTES);
    for text in many_texts() {
        for length in 0..text.len() {
            let what = || format!("the first {length} of {} bytes", text.len());
            assert_eq!(answer(&text[..length], &lent, what), 7);
        }
        assert_eq!(answer(&text, &lent, || "a whole text".to_string()), 0);
    }
}

#[test]
fn cut_before_every_line() {
    let lent = agree::pattern(BLOCK_BYTES);
    for name in jobs::names() {
        let text = jobs::text(&name);
        let mut start = 0;
        for line in lines(&text) {
            let what = || format!("{name} from byte {start}");
            let expected = if start == 0 { 0 } else { 7 };
            assert_eq!(answer(&text[start..], &lent, what), expected);
            start += line.len();
        }
    }
}

#[test]
fn every_byte_changed() {
    let lent = agree::pattern(BLOCK_BYTES);
    let mut seen = Counts::default();
    for (name, job) in small_texts() {
        for place in 0..job.len() {
            let mut text = job.clone();
            for value in 0..=u8::MAX {
                text[place] = value;
                let what = || format!("{name} with byte {place} = {value}");
                seen[answer(&text, &lent, what)] += 1;
            }
        }
    }
    assert_each_came(&seen, &[0, 2, 3, 4, 5, 7], 10);
    assert_each_came(&seen, &[13], 1);
}

#[test]
fn every_byte_inserted() {
    let lent = agree::pattern(BLOCK_BYTES);
    let mut seen = Counts::default();
    for (name, job) in small_texts() {
        for place in 0..=job.len() {
            let mut text = job.clone();
            text.insert(place, 0);
            for value in 0..=u8::MAX {
                text[place] = value;
                let what = || format!("{name} with {value} inserted at {place}");
                seen[answer(&text, &lent, what)] += 1;
            }
        }
    }
    assert_each_came(&seen, &[0, 2, 3, 4, 5, 7], 10);
    assert_each_came(&seen, &[13], 1);
}

/// Of the long text only every 16th byte.
#[test]
fn every_byte_dropped_and_doubled() {
    let lent = agree::pattern(BLOCK_BYTES);
    let mut seen = Counts::default();
    for (i, job) in many_texts().iter().enumerate() {
        let step = if job.len() < 8192 { 1 } else { 16 };
        for place in (0..job.len()).step_by(step) {
            let mut text = job.clone();
            text.remove(place);
            let what = || format!("text {i} without byte {place}");
            seen[answer(&text, &lent, what)] += 1;
            text.insert(place, job[place]);
            text.insert(place, job[place]);
            let what = || format!("text {i} with byte {place} twice");
            seen[answer(&text, &lent, what)] += 1;
        }
    }
    assert_each_came(&seen, &[0, 2, 3, 4, 5, 7], 10);
}

#[test]
fn every_two_lines_swapped_and_every_line_repeated_anywhere() {
    let lent = agree::pattern(BLOCK_BYTES);
    let mut seen = Counts::default();
    for (name, job) in small_texts() {
        let job = lines(&job);
        for i in 0..job.len() {
            for j in 0..job.len() {
                let mut swapped = job.clone();
                swapped.swap(i, j);
                let what = || format!("{name} with lines {i} and {j} swapped");
                seen[answer(&swapped.concat(), &lent, what)] += 1;
                let mut repeated = job.clone();
                repeated.insert(j, job[i]);
                let what = || format!("{name} with line {i} again before line {j}");
                seen[answer(&repeated.concat(), &lent, what)] += 1;
                let mut replaced = job.clone();
                replaced[j] = job[i];
                let what = || format!("{name} with line {i} for line {j}");
                seen[answer(&replaced.concat(), &lent, what)] += 1;
            }
            let mut dropped = job.clone();
            dropped.remove(i);
            let what = || format!("{name} without line {i}");
            seen[answer(&dropped.concat(), &lent, what)] += 1;
        }
    }
    assert_each_came(&seen, &[0, 5, 7], 10);
}
