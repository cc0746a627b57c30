//! The listing call: the listing to the byte, each refusal on both sides of its
//! border. A refusal changes nothing but the two rooms, and number 1 not even them.

use super::*;
use rbatl_tests::agree::{self, Outcome};
use rbatl_tests::listing::{self, LISTING_BYTES};
use rbatl_tests::model::{MOVES_BYTES, RANKS_BYTES};
use rbatl_tests::text::{has_first_edition, write_as, EDITIONS, TEXT_BYTES};
use rbatl_tests::text_damage::damage;
use rbatl_tests::{games, jobs};

pub(super) const LENGTHS: [usize; 3] = [LISTING_BYTES, RANKS_BYTES, MOVES_BYTES];

/// Listing, ranks and moves before a call.
pub(super) struct Lent([Vec<u8>; 3]);

impl Lent {
    pub(super) fn patterned(lengths: [usize; 3]) -> Lent {
        Lent(lengths.map(agree::pattern))
    }

    fn filled(byte: u8) -> Lent {
        Lent(LENGTHS.map(|length| vec![byte; length]))
    }

    /// The listing of the text, as the library and the model agree.
    pub(super) fn list(&self, text: &[u8], what: &str) -> Outcome {
        let [out, ranks, moves] = &self.0;
        let outcome = agree::list(text, [out, ranks, moves], || what.to_string());
        let (found, rooms) = outcome.buffer.split_at(out.len());
        match usize::try_from(outcome.answer) {
            Ok(length) => assert_eq!(&found[..length], listing::listing(text), "{what}"),
            Err(_) => assert!(found == out, "{what}: the listing"),
        }
        if outcome.answer == -1 {
            assert!(rooms == [&ranks[..], moves].concat(), "{what}: the rooms");
        } else {
            assert!(rooms.iter().all(|&byte| byte == 0), "{what}: the rooms");
        }
        outcome
    }
}

/// What the buffers hold beforehand must not matter.
fn lents() -> [Lent; 3] {
    [Lent::patterned(LENGTHS), Lent::filled(0), Lent::filled(255)]
}

#[test]
fn the_job_files() {
    for lent in lents() {
        for name in jobs::names() {
            assert!(lent.list(&jobs::text(&name), &name).answer > 0, "{name}");
        }
    }
    let catch = Lent::patterned(LENGTHS).list(&jobs::text("catch.job"), "Catch");
    assert_eq!(catch.answer, jobs::CATCH_LISTING.len() as i32);
}

/// A listing does not tell the edition of its text.
#[test]
fn both_editions() {
    let lent = Lent::patterned(LENGTHS);
    for name in jobs::names() {
        let job = jobs::load(&name);
        if has_first_edition(&job) {
            let [one, two] = EDITIONS.map(|edition| lent.list(&write_as(edition, &job), &name));
            assert!(one == two, "{name}");
        }
    }
}

#[test]
fn random_jobs() {
    let (lents, mut seen) = (lents(), Counts::default());
    for case in 0..cases(CASES) / 100 {
        let mut rng = Rng::for_case(SEED ^ 6, case);
        let mut job = games::mixed(&mut rng);
        let lent = &lents[(case % 3) as usize];
        let outcome = lent.list(&any_text(&mut rng, &mut job), &format!("case {case}"));
        seen[number(outcome.answer)] += 1;
    }
    assert_eq!(seen[1..], [0; 13], "a whole text is listed");
}

#[test]
fn damaged_texts() {
    let (lents, mut seen) = (lents(), Counts::default());
    for case in 0..cases(CASES) / 20 {
        let mut rng = Rng::for_case(SEED ^ 7, case);
        let mut job = games::small(&mut rng);
        let mut text = any_text(&mut rng, &mut job);
        let how = damage(&mut rng, &mut text);
        let lent = &lents[(case % 3) as usize];
        let outcome = lent.list(&text, &format!("case {case}: {how}"));
        seen[number(outcome.answer)] += 1;
    }
    assert_each_came(&seen, &[0, 2, 3, 4, 5, 7, 13], 20);
}

/// Each buffer shorter and longer, also by one byte; no text comes before that.
#[test]
fn lengths() {
    let texts = [jobs::text("catch.job"), Vec::new(), b"job,0,".to_vec()];
    for place in 0..3 {
        let right = LENGTHS[place];
        for other in [0, 1, right / 2, right - 1, right + 1, 2 * right] {
            let mut lengths = LENGTHS;
            lengths[place] = other;
            let lent = Lent::patterned(lengths);
            for text in &texts {
                let what = format!("buffer {place} of {other}");
                assert_eq!(lent.list(text, &what).answer, -1, "{what}");
            }
        }
    }
    let exchanged = Lent::patterned([LISTING_BYTES, MOVES_BYTES, RANKS_BYTES]);
    assert_eq!(exchanged.list(&texts[0], "exchanged").answer, -1);
}

/// Up to 32,768 bytes a text is looked at; from there on it is not.
#[test]
fn long_texts() {
    let lent = Lent::patterned(LENGTHS);
    for front in [&b""[..], b"job,2,1,25,1,6\n", b"job2,2,1,25,1,6,sum\n"] {
        for (length, beyond) in [(TEXT_BYTES, false), (TEXT_BYTES + 1, true)] {
            let mut text = front.to_vec();
            text.resize(length, b'\n');
            let number = if front.is_empty() { -7 } else { -2 };
            let expected = if beyond { -1 } else { number };
            assert_eq!(lent.list(&text, "a long text").answer, expected);
        }
    }
}
