//! What the listing program prints of a text.

use rbatl_tests::layout::Sizes;
use rbatl_tests::listing::listing;
use rbatl_tests::random::{any_text, Rng};
use rbatl_tests::{games, jobs, text, text_damage};

fn printed(text: &[u8]) -> String {
    String::from_utf8(listing(text)).expect("a listing is plain text")
}

#[test]
fn catch_has_its_listing() {
    assert_eq!(printed(&jobs::text("catch.job")), jobs::CATCH_LISTING);
}

/// The always row: rank 65535 where the coalition wins.
#[test]
fn catch_has_its_seventh_row() {
    let text = text::write(&jobs::catch_with_always());
    let seventh = "set,6,1,1\nplan,6,0,65535,4\n";
    let expected = jobs::CATCH_LISTING.replace("list,6", "list,7") + seventh;
    assert_eq!(printed(&text), expected);
}

/// No plan where the set is empty, and none for rows that are not strategic.
#[test]
fn the_smallest_job_has_no_plan() {
    let text = text::write(&jobs::smallest(1, 1, 1, 1, 1));
    assert_eq!(printed(&text), "list,1\nset,0,0,0\n");
}

#[test]
fn a_refused_text_has_its_number_alone() {
    let catch = jobs::text("catch.job");
    let mut long = catch.clone();
    long.resize(text::TEXT_BYTES, 0);
    assert_eq!(printed(&long), "refused,7\n");
    long.push(0);
    assert_eq!(printed(&long), "refused,1\n");
    assert_eq!(printed(b""), "refused,7\n");
    assert_eq!(printed(b"job,2,1,25,1,6\n"), "refused,2\n");
    assert_eq!(printed(&catch[..catch.len() - 1]), "refused,7\n");
}

/// Every text is refused or has a list line, a line for each row, and one for
/// each state of a strategic row.
#[test]
fn damaged_texts_have_a_listing_or_a_number() {
    let (mut listed, mut refused) = (0, 0);
    for case in 0..2000 {
        let mut rng = Rng::for_case(31, case);
        let mut job = games::small(&mut rng);
        let mut text = any_text(&mut rng, &mut job);
        let how = text_damage::damage(&mut rng, &mut text);
        let printed = printed(&text);
        match text::read(&text) {
            Ok(block) => {
                listed += 1;
                let sets = printed.lines().filter(|line| line.starts_with("set,"));
                assert!(printed.starts_with("list,"), "case {case}, {how}");
                assert_eq!(sets.count(), Sizes::of(&block).rows, "case {case}, {how}");
            }
            Err(number) => {
                refused += 1;
                assert_eq!(printed, format!("refused,{number}\n"), "case {case}, {how}");
            }
        }
    }
    assert!(listed > 100 && refused > 1000, "{listed} and {refused}");
}
