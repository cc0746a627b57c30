//! The examples of document 01.

use super::*;

#[test]
fn catch_is_read() {
    let block = expect(&catch(), 0, "Catch");
    assert!(block == jobs::load("catch.job"));
    assert_eq!(written(&block), CATCH_2);
    assert_eq!(catch().len(), 267);
    assert!(expect(CATCH_2, 0, "Catch in edition 2") == block);
}

#[test]
fn table_of_refusals() {
    let cases = [
        (2, "job,2,1,3,1,6", "job,2,1,25,1,6"),
        (3, "acts,1,0,2,0,3", "acts,1,0,2,1,3"),
        (4, "go,2,0,0,2", "go,2,0,0,3"),
        (5, "not,0", "not,1"),
        (7, "state,0,0", "state,00,0"),
    ];
    for (number, line, other) in cases {
        expect(&with_line(&catch(), line, other), number, other);
    }
    expect(&"0".repeat(32_769), 1, "32,769 bytes");
    expect(&"0".repeat(32_768), 7, "32,768 bytes");
}

/// Number 6 has no place in a text: of a block, it is the writer's answer.
#[test]
fn catch_with_byte_28() {
    let mut block = jobs::load("catch.job");
    block[mask(23)] = 1;
    let lent = agree::pattern(text::TEXT_BYTES);
    let outcome = agree::write(&block, &lent, || "Catch with byte 28 = 1".to_string());
    assert_eq!(outcome.answer, -6);
    assert!(outcome.buffer == lent);
}

/// "M 24 passes, 25 gives 2; count 4 passes, 5 gives 3; bound 15 passes, 16
/// gives 5."
#[test]
fn borders_not_starred() {
    expect(&text_of(&smallest(2, 1, 24, 1, 6)), 0, "M 24");
    let mut four = smallest(1, 1, 1, 1, 1);
    four[count(0, 0)] = 4;
    let four = text_of(&four);
    assert!(four.contains("acts,0,0,4,0,0,0,0\n"));
    expect(&four, 0, "count 4");
    let five = four.replace("acts,0,0,4,0,0,0,0\n", "acts,0,0,5,0,0,0,0,0\n");
    expect(&five, 3, "count 5");
    let bound = Field::of(&catch(), "until,3,[4],2,0");
    bound.read("15", row(5, BOUND), 15, "15");
    bound.refused("16", 5);
}

/// The seventh row of the starred cases.
#[test]
fn catch_with_a_seventh_row() {
    let text = catch().replace("job,2,1,3,1,6\n", "job,2,1,3,1,7\n") + "always,2,0,1\n";
    let block = expect(&text, 0, "Catch with a seventh row");
    assert_eq!(block[row(6, KIND)..row(7, KIND)], [4, 1, 0, 2, 0, 0, 0, 0]);
    assert_eq!(written_back(&block, &text), text);
}
