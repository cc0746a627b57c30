//! The two editions: told apart by the first word, and not to be mixed.

use super::*;

/// The lines after the first.
fn body(text: &str) -> &str {
    text.split_once('\n').expect("a line").1
}

/// A text that opens with neither word is refused at its first byte.
#[test]
fn first_words() {
    for word in [
        "job1,", "job3,", "job22,", "job02,", "job2;", "job;", "Job2,", "JOB2,", "job2", "job ",
        "job 2,", "job2 ,", " job2,", "jo2,", "2job,", "job-2,", "jobs,", "\njob2,", "job2\n",
        "max,", ",", "",
    ] {
        for sizes in ["2,1,3,1,6,sum\n", "2,1,3,1,6\n"] {
            expect_at(&format!("[]{word}{sizes}{}", body(CATCH_2)), 7, word);
        }
    }
}

/// Catch without its first comma is of edition 2, with one agent and R 3.
#[test]
fn a_comma_too_few() {
    let text = catch().replacen("job,2", "job2", 1);
    expect_at(&text.replacen(",3,", ",[3],", 1), 2, "job2,1,3,1,6");
}

/// Edition 1 gives kind sum for each resource, and 0 for an absent one.
#[test]
fn kinds_of_edition_1() {
    for text in [catch(), WIDE.to_string()] {
        let block = expect(&text, 0, "edition 1");
        assert_eq!(block[2469..], [0, 0]);
    }
}

/// The same job in both editions is the same block, up to a kind that edition 1
/// cannot say.
#[test]
fn the_same_job() {
    assert!(expect(&catch(), 0, "Catch") == expect(CATCH_2, 0, "Catch in edition 2"));
    let (mut first, second) = (expect(WIDE, 0, "wide"), expect(WIDE_2, 0, "wide"));
    assert!(first != second);
    first[2470] = 1;
    assert!(first == second);
}

/// The first line of one edition before the lines of the other, in jobs with several
/// joint actions and with one.
#[test]
fn the_other_edition_s_lines() {
    let smallest = smallest(1, 1, 1, 1, 1);
    let [one, two] = text::EDITIONS.map(|edition| text::write_as(edition, &smallest));
    let [one, two] = [one, two].map(|text| String::from_utf8(text).expect("plain text"));
    let wide = WIDE_2.to_string();
    for (one, two) in [
        (catch(), CATCH_2.to_string()),
        (WIDE.to_string(), wide),
        (one, two),
    ] {
        expect(&one, 0, "edition 1");
        expect(&two, 0, "edition 2");
        let mixed = |first: &str, rest: &str| {
            let line = first.split_once('\n').expect("a line").0;
            format!("{line}\n{}", body(rest))
        };
        expect(
            &mixed(&one, &two),
            7,
            "edition 1 with the lines of edition 2",
        );
        expect(
            &mixed(&two, &one),
            7,
            "edition 2 with the lines of edition 1",
        );
        expect(
            &one.replacen("job", "job2", 1),
            7,
            "edition 1's line as job2",
        );
        expect(
            &two.replacen("job2", "job", 1),
            7,
            "edition 2's line as job",
        );
    }
}

/// One state's `go` line or lines of the other edition.
#[test]
fn one_state_of_the_other_edition() {
    let ones = "go,0,0,0,0\ngo,0,1,0,1\ngo,0,0,1,0\ngo,0,1,1,0\n";
    let two = "go,0,0,1,0,0\n";
    expect(&catch().replace(ones, two), 7, "a line of edition 2");
    expect(&CATCH_2.replace(two, ones), 7, "lines of edition 1");
    // Where the state has one joint action, by the count of fields alone.
    expect(&catch().replace("go,2,0,0,2\n", "go,2,2\n"), 7, "go,2,2");
    expect(
        &CATCH_2.replace("go,2,2\n", "go,2,0,0,2\n"),
        7,
        "go,2,0,0,2",
    );
}
