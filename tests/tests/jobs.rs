//! The files of jobs/ are what they are said to be, and pass.

use rbatl_tests::layout::*;
use rbatl_tests::listing::{listing, LISTING_BYTES};
use rbatl_tests::model::{MOVES_BYTES, RANKS_BYTES};
use rbatl_tests::text::{self, Edition};
use rbatl_tests::{block, ffi, full, jobs};

/// The bytes of Catch that are not 0, read off document 01 by hand.
#[rustfmt::skip]
const CATCH: [(usize, u8); 33] = [
    (0, 2), (1, 1), (2, 3), (3, 1), (4, 6),
    (7, 1),
    (29, 2), (30, 2), (32, 2), (33, 1), (35, 1), (36, 1),
    (103, 2), (127, 3),
    (678, 1), (741, 1), (742, 2), (805, 2),
    (2221, 1),
    (2229, 2), (2231, 1),
    (2237, 5), (2238, 2), (2240, 1), (2241, 5),
    (2245, 5), (2246, 2), (2248, 3), (2249, 5),
    (2253, 5), (2254, 2), (2256, 3), (2257, 4),
];

#[test]
fn every_job_passes() {
    let names = jobs::names();
    let expected = [
        "catch.job",
        "cradle.job",
        "first.job",
        "full.job",
        "minutes-sum.job",
        "minutes.job",
        "plant.job",
        "sensor.job",
    ];
    assert_eq!(names, expected);
    for name in names {
        let block = jobs::load(&name);
        assert_eq!(block::check(&block), 0, "{name}");
        assert_eq!(ffi::check(&block), 0, "{name}");
    }
}

#[test]
fn every_job_is_written_back_in_its_edition() {
    for name in jobs::names() {
        let text = jobs::text(&name);
        let edition = Edition::of(&text).expect("a first word");
        let second = ["cradle.job", "minutes-sum.job", "minutes.job", "plant.job"];
        let second = second.contains(&name.as_str());
        assert_eq!(edition == Edition::Two, second, "{name}");
        assert!(
            text::write_as(edition, &jobs::load(&name)) == text,
            "{name}"
        );
    }
}

#[test]
fn catch_has_the_bytes_of_document_01() {
    let mut expected = vec![0; BLOCK_BYTES];
    for (place, value) in CATCH {
        expected[place] = value;
    }
    assert!(jobs::load("catch.job") == expected);
}

#[test]
fn catch_with_byte_28_set_is_refused() {
    let mut block = jobs::load("catch.job");
    block[28] = 1;
    assert_eq!(block::check(&block), 6);
    assert_eq!(ffi::check(&block), -6);
}

/// The two jobs differ in the kind of resource 1 alone.
#[test]
fn minutes_have_their_kinds() {
    let (job, mut other) = (jobs::load("minutes.job"), jobs::load("minutes-sum.job"));
    assert_eq!(job[2469..], [0, 1]);
    assert_eq!(other[2469..], [0, 0]);
    other[2470] = 1;
    assert!(job == other);
}

/// The listing of the job with the cradle, worked out position by position from the
/// definition (jobs/README.md says why).
const CRADLE_LISTING: &str = "\
list,10
set,0,1,8
set,1,3,7
set,2,4,15
set,3,3,14
set,4,4,15
plan,4,0,6,1
plan,4,1,1,5
plan,4,2,2,5
plan,4,3,0,0
set,5,3,14
plan,5,1,1,5
plan,5,2,2,5
plan,5,3,0,0
set,6,2,10
plan,6,1,1,5
plan,6,3,0,0
set,7,2,10
plan,7,1,1,1
plan,7,3,0,0
set,8,3,14
plan,8,1,65535,0
plan,8,2,65535,5
plan,8,3,65535,0
set,9,2,10
plan,9,1,1,5
plan,9,3,1,0
";

/// The listing of a text by both implementations.
fn listed(text: &[u8]) -> String {
    let mut bytes = vec![0; LISTING_BYTES];
    let (mut ranks, mut moves) = (vec![0; RANKS_BYTES], vec![0; MOVES_BYTES]);
    let length = ffi::list(text, &mut bytes, &mut ranks, &mut moves);
    bytes.truncate(usize::try_from(length).expect("a listing"));
    assert!(listing(text) == bytes);
    String::from_utf8(bytes).expect("plain text")
}

/// One action charges, and row 4 has a rank above the number of states.
#[test]
fn cradle_has_its_listing() {
    let job = jobs::load("cradle.job");
    assert_eq!((job[cost(1, 1, 1, 0)], job[cost(1, 1, 1, 1)]), (254, 1));
    assert_eq!(job[2469..], [SUM, MAX]);
    assert_eq!(listed(&jobs::text("cradle.job")), CRADLE_LISTING);
}

/// With a free action in the place of the charge five rows are true in state 3 alone.
#[test]
fn cradle_without_its_charge() {
    let text = String::from_utf8(jobs::text("cradle.job")).unwrap();
    assert_eq!(text.matches('-').count(), 1);
    let listed = listed(text.replace("-2", "0").as_bytes());
    let sets = |listing: &str| -> Vec<String> {
        let lines = listing.lines().filter(|line| line.starts_with("set,"));
        lines.map(String::from).collect()
    };
    let mut due = sets(CRADLE_LISTING);
    for row in [4, 5, 6, 8, 9] {
        due[row] = format!("set,{row},1,8");
    }
    assert_eq!(sets(&listed), due);
}

#[test]
fn sensor_has_the_sizes_of_the_paper() {
    let sizes = Sizes::of(&jobs::load("sensor.job"));
    assert_eq!(
        (sizes.agents, sizes.resources, sizes.propositions),
        (2, 2, 1)
    );
}

#[test]
fn full_job_is_what_its_generator_prints() {
    assert!(jobs::text("full.job") == full::text());
}

#[test]
fn full_job_is_of_full_size() {
    let block = jobs::load("full.job");
    assert_eq!(Sizes::of(&block), Sizes::FULL);
    for state in 0..MAX_STATES {
        assert_eq!(joint_actions(&block, state).count(), JOINTS);
    }
    let rows = || (0..MAX_ROWS).map(|i| &block[row(i, 0)..row(i + 1, 0)]);
    for kind in PROP..=UNTIL {
        assert!(rows().any(|row| row[KIND] == kind), "kind {kind}");
    }
    for bound in [0, MAX_BOUND, UNLIMITED] {
        let has = |row: &[u8]| is_strategic(row[KIND]) && row[BOUND..PADDING].contains(&bound);
        assert!(rows().any(has), "bound {bound}");
    }
}
