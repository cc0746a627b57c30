//! The first line of edition 2: five sizes, then one kind word per resource.

use super::*;
use rbatl_tests::text_damage::NO_KINDS;

/// The sizes of a first line in brackets, each with the largest in range.
const SIZES: [(&str, usize); 5] = [
    ("job2,[2],1,3,1,6,sum", MAX_AGENTS),
    ("job2,2,[1],3,1,6,sum", MAX_RESOURCES),
    ("job2,2,1,[3],1,6,sum", MAX_STATES),
    ("job2,2,1,3,[1],6,sum", MAX_PROPOSITIONS),
    ("job2,2,1,3,1,[6],sum", MAX_ROWS),
];

/// Each kind word, alone and beside another.
fn words() -> [(Field, usize); 3] {
    [
        (Field::of(CATCH_2, "job2,2,1,3,1,6,[sum]"), 0),
        (Field::of(WIDE_2, "job2,3,2,2,3,9,[sum],max"), 0),
        (Field::of(WIDE_2, "job2,3,2,2,3,9,sum,[max]"), 1),
    ]
}

#[test]
fn sizes_out_of_range() {
    for (marked, max) in SIZES {
        Field::of(CATCH_2, marked).is_a_size(max);
    }
}

/// A size out of range answers before any kind word is looked at.
#[test]
fn sizes_before_kinds() {
    let lines = [
        "job2,[9],1,3,1,6,min",
        "job2,2,[3],3,1,6,min",
        "job2,2,1,[25],1,6",
        "job2,2,1,3,[9],6,min",
        "job2,2,1,3,1,[33],min",
        "job2,2,1,3,1,[0],",
    ];
    for line in lines {
        expect_at(&with_line(CATCH_2, "job2,2,1,3,1,6,sum", line), 2, line);
    }
}

/// A comma follows the last size, and edition 1's line end does not.
#[test]
fn last_size_before_a_comma() {
    for end in ["\n", "\nstate,0,0\n", "", ";sum\n", " ,sum\n", "sum\n"] {
        for size in ["6", "33"] {
            let text = format!("job2,2,1,3,1,[{size}]{end}");
            expect_at(&text, 7, &text);
        }
    }
}

#[test]
fn kind_words() {
    for (field, resource) in words() {
        let place = resource_kind(resource);
        field.read("sum", place, SUM, "sum");
        field.read("max", place, MAX, "max");
        for spelling in NO_KINDS {
            field.refused(spelling, 7);
        }
    }
}

/// The comma or line end after a word belongs to its form.
#[test]
fn kind_words_before_their_end() {
    for (field, _) in words() {
        let (end, rest) = field.after.split_at(1);
        for word in ["sum", "max"] {
            for other in ["", ";", " ", ",", "\n", "\r\n", "\t", "\0", " ,"] {
                if other != end {
                    let marked = format!("{}[{word}]{other}{rest}", field.before);
                    expect_at(&marked, 7, &format!("{}, {word}{other:?}", field.name));
                }
            }
            let marked = format!("{}[{word}]", field.before);
            expect_at(&marked, 7, &field.name);
        }
    }
}

/// One word per resource, no fewer and no more.
#[test]
fn number_of_kind_words() {
    for line in [
        "job2,2,1,3,1,6,[]",
        "job2,2,1,3,1,[6]",
        "job2,2,1,3,1,6,[sum],sum",
        "job2,2,1,3,1,6,[sum],max",
        "job2,2,1,3,1,6,[sum],",
        "job2,2,1,3,1,6,[],sum",
    ] {
        expect_at(&with_line(CATCH_2, "job2,2,1,3,1,6,sum", line), 7, line);
    }
    for line in [
        "job2,3,2,2,3,[9]",
        "job2,3,2,2,3,9,[sum]",
        "job2,3,2,2,3,9,[max]",
        "job2,3,2,2,3,9,sum,[]",
        "job2,3,2,2,3,9,[],max",
        "job2,3,2,2,3,9,sum,[max],sum",
        "job2,3,2,2,3,9,sum,[max],",
    ] {
        expect_at(&with_line(WIDE_2, "job2,3,2,2,3,9,sum,max", line), 7, line);
    }
}

/// Every choice of words is read as its kinds.
#[test]
fn every_choice_of_kinds() {
    let wide = expect(WIDE_2, 0, "two resources");
    assert_eq!(wide[2469..], [0, 1]);
    for (words, kinds) in [
        ("sum,sum", [0, 0]),
        ("sum,max", [0, 1]),
        ("max,sum", [1, 0]),
        ("max,max", [1, 1]),
    ] {
        let block = expect(&WIDE_2.replace("sum,max", words), 0, words);
        assert_eq!(block[2469..], kinds);
        assert!(block[..2469] == wide[..2469], "{words}");
    }
    for (word, kind) in [("sum", 0), ("max", 1)] {
        let block = expect(&CATCH_2.replace("sum", word), 0, word);
        assert_eq!(block[2469..], [kind, 0]);
    }
}
