//! The first line: five sizes. What edition 2 adds stands in kinds.rs.

use super::*;

/// The five sizes, each with its place in the line and its maximum.
const MAXIMA: [usize; 5] = [
    MAX_AGENTS,
    MAX_RESOURCES,
    MAX_STATES,
    MAX_PROPOSITIONS,
    MAX_ROWS,
];

/// Catch's line `job`, the size of this number in brackets.
fn field(size: usize) -> Field {
    let marked = [
        "job,[2],1,3,1,6",
        "job,2,[1],3,1,6",
        "job,2,1,[3],1,6",
        "job,2,1,3,[1],6",
        "job,2,1,3,1,[6]",
    ];
    Field::of(&catch(), marked[size])
}

#[test]
fn sizes_out_of_range() {
    for (size, max) in MAXIMA.into_iter().enumerate() {
        field(size).is_a_size(max);
    }
}

/// With the lines that it asks for, every size in range is read.
#[test]
fn sizes_in_range() {
    for (size, max) in MAXIMA.into_iter().enumerate() {
        for value in 1..=max {
            let mut sizes = [2, 1, 3, 1, 6];
            sizes[size] = value;
            let [agents, resources, states, propositions, rows] = sizes;
            let expected = smallest(agents, resources, states, propositions, rows);
            let text = text_of(&expected);
            let block = expect(&text, 0, &format!("sizes {sizes:?}"));
            assert!(block == expected, "sizes {sizes:?}");
            assert_eq!(written_back(&block, &text), text);
        }
    }
}

/// A size in range, but not the one that the lines are made for: the first
/// field that does not fit answers.
#[test]
fn sizes_that_the_lines_do_not_fit() {
    for (size, value, number) in [
        (0, "1", 7), // acts,0,1 for go,0,0
        (0, "3", 7), // go,0,0 for acts,0,2
        (1, "2", 7), // acts,0,0,2,0,2 lacks two costs
        (2, "2", 4), // go,1,1,0,2
        (2, "4", 7), // prop,0 for state,3
        (4, "5", 7), // a row too many
        (4, "7", 7), // a row too few
    ] {
        field(size).refused(value, number);
    }
    // More propositions than the masks use.
    field(3).read("8", PROPOSITIONS, 8, "8");
}

#[test]
fn number_of_sizes() {
    for line in [
        "job",
        "job,",
        "job,2",
        "job,2,",
        "job,2,1,3,1",
        "job,2,1,3,1,",
        "job,2,1,3,1,6,",
        "job,2,1,3,1,6,0",
        "job,,2,1,3,1,6",
        ",2,1,3,1,6",
        "2,1,3,1,6",
        "job 2,1,3,1,6",
    ] {
        expect(&with_line(&catch(), "job,2,1,3,1,6", line), 7, line);
    }
}
