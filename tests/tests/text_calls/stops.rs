//! Where reading stops: at the field that a text is refused for, or at its end.

use super::*;
use rbatl_tests::text::{self, TEXT_BYTES};
use rbatl_tests::text_damage::{damage, empty_bounds};
use rbatl_tests::{ffi, jobs};

/// The place, which both readers must tell.
fn stop(text: &[u8], what: &str) -> i32 {
    let place = ffi::read_at(text);
    assert_eq!(place, text::read_at_call(text), "{what}");
    place
}

/// A text with one text in the place of another, and the place where the change
/// begins.
fn with(text: &str, old: &str, new: &str) -> (Vec<u8>, i32) {
    let place = text.find(old).unwrap_or_else(|| panic!("{old} in {text}"));
    (text.replacen(old, new, 1).into_bytes(), place as i32)
}

/// Each change of a job file stops reading so much further than it begins.
fn expect_stops(name: &str, changes: &[(&str, &str, i32)]) {
    let job = String::from_utf8(jobs::text(name)).expect("plain text");
    for (old, new, further) in changes {
        let (text, place) = with(&job, old, new);
        assert_eq!(stop(&text, new), place + further, "{old} to {new}");
    }
}

#[test]
fn damaged_texts() {
    let cases = cases(CASES);
    let mut refused = 0;
    for case in 0..cases {
        let mut rng = Rng::for_case(SEED ^ 2, case);
        let (_, written) = job_and_text(&mut rng);
        let (mut text, _) = empty_bounds(&mut rng, &written);
        let how = damage(&mut rng, &mut text);
        let place = stop(&text, &format!("case {case}: {how}"));
        refused += u64::from(place < text.len() as i32);
    }
    assert!(
        refused >= cases / 2,
        "only {refused} texts stop before their end"
    );
}

/// Each beginning of a text stops at the field that it cuts off.
#[test]
fn cut_texts() {
    for name in ["first.job", "catch.job", "minutes.job"] {
        let text = jobs::text(name);
        for length in 0..=text.len() {
            let place = stop(&text[..length], &format!("{length} bytes of {name}"));
            let field = match length == text.len() {
                true => length,
                false => text[..length]
                    .iter()
                    .rposition(|&b| b == b',' || b == b'\n')
                    .map_or(0, |at| at + 1),
            };
            assert_eq!(place, field as i32, "{length} bytes of {name}");
        }
    }
}

/// A value is told by its field's first byte, and so is a form.
#[test]
fn fields() {
    let changes = [
        ("job,", "jobs,", 0),
        ("1,1,2,1,3", "4,1,2,1,3", 0),
        ("1,2,1,3\nstate", "1,25,1,3\nstate", 2),
        ("state,0", "state,00", 6),
        ("2,0,2\n", "5,0,2\n", 0),
        ("0,2\ngo", "1,2\ngo", 0),
        ("2\ngo,0,0,0", "16\ngo,0,0,0", 0),
        ("go,0,1,1", "go,0,2,1", 5),
        ("go,1,0,1", "go,1,0,2", 7),
        ("not,0", "nor,0", 0),
        ("not,0", "not,1", 4),
        ("until,1", "until,0", 6),
        ("until,1,2", "until,1,16", 8),
        ("until,1,2", "until,1,255", 8),
        ("until,1,2", "until,1,  ", 8),
    ];
    expect_stops("first.job", &changes);
}

/// What edition 2 has of its own, on both sides of each border.
#[test]
fn fields_of_edition_2() {
    let changes = [
        ("job2,", "job3,", 0),
        ("job2,3,2,5,1,7,", "job,3,2,5,1,7,", 12),
        ("3,2,5,1,7,sum", "4,2,5,1,7,min", 0),
        ("7,sum", "33,min", 0),
        ("7,sum,max", "7", 0),
        ("sum,max", "min,max", 0),
        ("sum,max", "sum", 0),
        ("max\n", "maxi\n", 0),
        ("max\n", "max,sum\n", 0),
        ("go,0,0", "go,1,0", 3),
        ("go,0,0,1,2,3", "go,0,5,1,2,3", 5),
        ("go,0,0,1,2,3", "go,0,0,1,2,5", 11),
        ("go,0,0,1,2,3", "go,0,0,1,2", 9),
        ("go,0,0,1,2,3", "go,0,0,1,2,3,0", 11),
        ("go,4,4", "go,4,5", 5),
        ("go,4,4", "go,4,4,4", 5),
    ];
    expect_stops("minutes.job", &changes);
}

/// Bytes after the last line stop reading where they begin.
#[test]
fn ends() {
    let text = jobs::text("first.job");
    for more in ["\n", " ", "prop,0\n", "\0"] {
        let longer = [&text, more.as_bytes()].concat();
        assert_eq!(stop(&longer, more), text.len() as i32, "{more:?}");
    }
    assert_eq!(stop(&text, "whole"), text.len() as i32);
    assert_eq!(stop(b"", "nothing"), 0);
}

/// A text of 32,768 bytes is looked at, and a longer one is not.
#[test]
fn long_texts() {
    let mut text = jobs::text("first.job");
    let length = text.len() as i32;
    text.resize(TEXT_BYTES, b'x');
    assert_eq!(stop(&text, "32,768 bytes"), length);
    text.push(b'x');
    assert_eq!(stop(&text, "32,769 bytes"), -1);
}
