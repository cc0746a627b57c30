//! Each field of a text of either edition on both sides of its borders, read by
//! `rbatl_read` and by the reader made from documents 01 and 02; the answers
//! expected stand here.

mod charges;
mod editions;
mod examples;
mod form;
mod header;
mod kinds;
mod nexts;
mod order;
mod rows;
mod states;

use rbatl_tests::jobs::smallest;
use rbatl_tests::layout::*;
use rbatl_tests::text::{self, Edition};
use rbatl_tests::text_damage::NO_NUMBERS;
use rbatl_tests::{agree, ffi, jobs};
use std::ops::RangeInclusive;

/// Rows of every kind, which are alike in both editions.
macro_rules! wide_rows {
    () => {
        "\
prop,2
not,0
or,0,1
next,5,15,inf,2
always,7,0,3,3
until,2,inf,inf,4,0
prop,0
or,6,5
until,1,0,15,7,1
"
    };
}

/// A job with three agents, two resources and rows of every kind.
const WIDE: &str = concat!(
    "\
job,3,2,2,3,9
state,0,5
acts,0,0,2,0,0,15,3
acts,0,1,1,0,0
acts,0,2,2,0,0,1,0
go,0,0,0,0,0
go,0,1,0,0,1
go,0,0,0,1,1
go,0,1,0,1,0
state,1,0
acts,1,0,1,0,0
acts,1,1,1,0,0
acts,1,2,1,0,0
go,1,0,0,0,1
",
    wide_rows!()
);

/// The same job in edition 2, with a resource of each kind.
const WIDE_2: &str = concat!(
    "\
job2,3,2,2,3,9,sum,max
state,0,5
acts,0,0,2,0,0,15,3
acts,0,1,1,0,0
acts,0,2,2,0,0,1,0
go,0,0,1,1,0
state,1,0
acts,1,0,1,0,0
acts,1,1,1,0,0
acts,1,2,1,0,0
go,1,1
",
    wide_rows!()
);

/// Catch in edition 2.
const CATCH_2: &str = "\
job2,2,1,3,1,6,sum
state,0,0
acts,0,0,2,0,2
acts,0,1,2,0,0
go,0,0,1,0,0
state,1,0
acts,1,0,2,0,3
acts,1,1,1,0
go,1,1,2
state,2,1
acts,2,0,1,0
acts,2,1,1,0
go,2,2
prop,0
not,0
or,0,1
until,1,5,2,0
until,3,5,2,0
until,3,4,2,0
";

fn catch() -> String {
    String::from_utf8(jobs::text("catch.job")).expect("Catch is plain text")
}

/// A narrow and a wide job in each edition.
fn texts() -> [String; 4] {
    [catch(), WIDE.into(), CATCH_2.into(), WIDE_2.into()]
}

/// Reading the text must give the number, 0 if it is read, and a refusal must
/// leave the lent block as it was; both readers must stop at the same place. Gives
/// the block.
fn expect(text: &str, number: u8, name: &str) -> Vec<u8> {
    let lent = agree::pattern(BLOCK_BYTES);
    let outcome = agree::read(text.as_bytes(), &lent, || name.to_string());
    assert_eq!(outcome.answer, -i32::from(number), "{name}");
    assert!(number == 0 || outcome.buffer == lent, "{name}: the block");
    let text = text.as_bytes();
    assert_eq!(
        ffi::read_at(text),
        text::read_at_call(text),
        "{name}: the place"
    );
    outcome.buffer
}

/// The same, with the place where reading stops: the first byte of the field that
/// the marked text has in brackets.
fn expect_at(marked: &str, number: u8, name: &str) {
    let place = marked.find('[').expect("a field in brackets");
    let text = marked.replace(['[', ']'], "");
    expect(&text, number, name);
    assert_eq!(
        ffi::read_at(text.as_bytes()),
        place as i32,
        "{name}: the place"
    );
}

/// The text that the library writes of a block that passes.
fn written(block: &[u8]) -> String {
    let mut text = agree::pattern(text::TEXT_BYTES);
    let length = usize::try_from(ffi::write(block, &mut text)).expect("the block passes");
    String::from_utf8(text[..length].to_vec()).expect("plain text")
}

/// The text that is written of a block, in the edition in which it was read. The
/// library writes edition 2 alone.
fn written_back(block: &[u8], read: &str) -> String {
    assert_eq!(written(block).as_bytes(), text::write(block));
    let edition = Edition::of(read.as_bytes()).unwrap_or(Edition::Two);
    String::from_utf8(text::write_as(edition, block)).expect("plain text")
}

/// The text with one line in the place of another, which stands in it once.
fn with_line(text: &str, line: &str, other: &str) -> String {
    let lines: Vec<&str> = text.split('\n').collect();
    let found = lines.iter().filter(|&&l| l == line).count();
    assert_eq!(found, 1, "{line} in {text}");
    let lines = lines.iter().map(|&l| if l == line { other } else { l });
    lines.collect::<Vec<_>>().join("\n")
}

/// A field of a text, spelled in other ways.
struct Field {
    name: String,
    before: String,
    now: String,
    /// From the comma or line end after the field on.
    after: String,
}

impl Field {
    /// The field in brackets, of the text's line that reads so without them.
    fn of(text: &str, marked: &str) -> Field {
        let text = with_line(text, &marked.replace(['[', ']'], ""), marked);
        let (before, rest) = text.split_once('[').expect("a field in brackets");
        let (now, after) = rest.split_once(']').expect("a field in brackets");
        Field {
            name: marked.to_string(),
            before: before.to_string(),
            now: now.to_string(),
            after: after.to_string(),
        }
    }

    fn text(&self, spelling: &str) -> String {
        format!("{}{spelling}{}", self.before, self.after)
    }

    /// The text with this spelling is refused with the number.
    fn refused(&self, spelling: &str, number: u8) {
        let name = format!("{} spelled {spelling:?}", self.name);
        expect(&self.text(spelling), number, &name);
    }

    /// The text with this spelling is read, with the value at the place, and
    /// written back with the other spelling.
    fn read(&self, spelling: &str, place: usize, value: u8, back: &str) {
        let name = format!("{} spelled {spelling:?}", self.name);
        let block = expect(&self.text(spelling), 0, &name);
        assert_eq!(block[place], value, "{name}");
        assert_eq!(
            written_back(&block, &self.before),
            self.text(back),
            "{name}"
        );
    }

    /// What is no number is refused for its form, and so is a number, of any
    /// value, that another byte than the right one follows.
    fn wants_a_number(&self) {
        for spelling in NO_NUMBERS {
            self.refused(spelling, 7);
        }
        self.refused("inf", 7);
        self.wants_its_end();
    }

    /// The comma or line end after a number belongs to its form, which is tried
    /// before the value.
    fn wants_its_end(&self) {
        let (end, rest) = self.after.split_at(1);
        for number in 0..=u8::MAX {
            for other in ["", ";", " ", ",", "\n", "\r\n", "\t", "\0", " ,", "-"] {
                let text = format!("{}{number}{other}{rest}", self.before);
                if !other.starts_with(end) && !continues(other, rest) {
                    let name = format!("{}: {number} and {other:?}", self.name);
                    expect(&text, 7, &name);
                }
            }
        }
        let name = format!("{}: the text ends", self.name);
        expect(&format!("{}{}", self.before, self.now), 7, &name);
        expect(&self.before, 7, &name);
    }

    /// A value: numbers in the range are read as they are, others refused.
    fn holds(&self, place: usize, range: RangeInclusive<u8>, number: u8) {
        self.wants_a_number();
        for value in 0..=u8::MAX {
            let spelling = value.to_string();
            match range.contains(&value) {
                true => self.read(&spelling, place, value, &spelling),
                false => self.refused(&spelling, number),
            }
        }
    }

    /// A size from 1 up to the most. One in range may ask for other lines.
    fn is_a_size(&self, most: usize) {
        self.wants_a_number();
        for value in (0..=255).filter(|value| !(1..=most).contains(value)) {
            self.refused(&value.to_string(), 2);
        }
    }

    /// A number that the form fixes.
    fn is_fixed(&self) {
        self.wants_a_number();
        for value in 0..=u8::MAX {
            let spelling = value.to_string();
            let number = if spelling == self.now { 0 } else { 7 };
            expect(
                &self.text(&spelling),
                number,
                &format!("{}: {value}", self.name),
            );
        }
    }
}

/// Without a byte between them, a number and the next field's digits are one
/// number, whose own end may be the right one.
fn continues(other: &str, rest: &str) -> bool {
    other.is_empty() && rest.starts_with(|c: char| c.is_ascii_digit())
}

/// The text of edition 1.
fn text_of(block: &[u8]) -> String {
    text_in(Edition::One, block)
}

fn text_in(edition: Edition, block: &[u8]) -> String {
    String::from_utf8(text::write_as(edition, block)).expect("plain text")
}

/// The next states of the first and the last of so many states are below their
/// number; the actions stand before them.
fn next_states_are_states(edition: Edition, actions: &str) {
    for states in [1, 2, 9, 10, 11, 24] {
        let text = text_in(edition, &smallest(1, 1, states, 1, 1));
        let last = states as u8 - 1;
        for state in [0, last] {
            let marked = format!("go,{state},{actions}[0]");
            Field::of(&text, &marked).holds(next(state.into(), 0), 0..=last, 4);
        }
    }
}
