//! Costs of edition 2, which may be charges: a minus before a number that is not 0.

use super::*;
use rbatl_tests::text_damage::MINUSES;

/// Costs of actions beside idling, each with its place and its resource's kind.
fn costs() -> [(Field, usize, u8); 5] {
    let wide = |marked| Field::of(WIDE_2, marked);
    [
        (wide("acts,0,0,2,0,0,[15],3"), cost(0, 0, 1, 0), SUM),
        (wide("acts,0,0,2,0,0,15,[3]"), cost(0, 0, 1, 1), MAX),
        (wide("acts,0,2,2,0,0,[1],0"), cost(0, 2, 1, 0), SUM),
        (wide("acts,0,2,2,0,0,1,[0]"), cost(0, 2, 1, 1), MAX),
        (
            Field::of(CATCH_2, "acts,1,0,2,0,[3]"),
            cost(1, 0, 1, 0),
            SUM,
        ),
    ]
}

/// Costs of idling, of a resource of each kind, before a comma and a line end.
fn idle_costs() -> [Field; 4] {
    let wide = |marked| Field::of(WIDE_2, marked);
    [
        wide("acts,0,0,2,[0],0,15,3"),
        wide("acts,0,0,2,0,[0],15,3"),
        wide("acts,1,2,1,0,[0]"),
        Field::of(CATCH_2, "acts,2,1,1,[0]"),
    ]
}

/// Every number with a minus and without one.
#[test]
fn every_number() {
    for (field, place, kind) in costs() {
        for number in 0..=u8::MAX {
            let spelling = number.to_string();
            match number {
                0..=15 => field.read(&spelling, place, number, &spelling),
                16.. => field.refused(&spelling, 3),
            }
            let charge = format!("-{number}");
            match number {
                0 => field.refused(&charge, 7),
                1..=15 if kind == MAX => field.refused(&charge, 13),
                1..=15 => field.read(&charge, place, 0u8.wrapping_sub(number), &charge),
                16.. => field.refused(&charge, 3),
            }
        }
    }
}

/// A charge is held as 256 minus it, at both ends of the range.
#[test]
fn bytes() {
    for (field, place, kind) in costs() {
        if kind == SUM {
            field.read("-1", place, 255, "-1");
            field.read("-15", place, 241, "-15");
            field.read("0", place, 0, "0");
            field.read("15", place, 15, "15");
        }
        field.refused("-16", 3);
        field.refused("16", 3);
        field.refused("-255", 3);
        field.refused("255", 3);
        field.refused("-256", 7);
        field.refused("256", 7);
    }
}

/// What has a minus and is no charge, or is no number at all.
#[test]
fn form() {
    let bad = [
        "-",
        "--",
        "--1",
        "---1",
        "-01",
        "-00",
        "-0",
        "-007",
        "-256",
        "-300",
        "-999",
        "-1000",
        "-65537",
        "-4294967297",
        "- 1",
        " -1",
        "-1 ",
        "-+1",
        "+-1",
        "-x",
        "-1x",
        "-inf",
        "inf-",
        "1-",
        "1-1",
        "-1-",
        "-1-1",
        "0-",
        "-.",
        "-1.0",
        "\u{2212}1",
        "~1",
        "(1)",
        "_1",
    ];
    for (field, ..) in costs() {
        for spelling in bad {
            field.refused(spelling, 7);
        }
        for spelling in NO_NUMBERS {
            if spelling != "-1" {
                field.refused(spelling, 7);
            }
        }
        field.refused("inf", 7);
    }
    for field in idle_costs() {
        for spelling in bad {
            field.refused(spelling, 7);
        }
    }
}

/// Idling charges nothing, and that comes before the kind.
#[test]
fn idling() {
    for field in idle_costs() {
        for number in 1..=u8::MAX {
            field.refused(&format!("-{number}"), 3);
            field.refused(&number.to_string(), 3);
        }
        field.refused("-0", 7);
        field.refused("-256", 7);
    }
}

/// In edition 1 a cost has no minus, whatever follows it.
#[test]
fn edition_1() {
    for (text, marked) in [
        (WIDE.to_string(), "acts,0,0,2,0,0,[15],3"),
        (WIDE.to_string(), "acts,0,0,2,0,0,15,[3]"),
        (WIDE.to_string(), "acts,0,0,2,[0],0,15,3"),
        (catch(), "acts,1,0,2,0,[3]"),
        (catch(), "acts,1,0,2,[0],3"),
    ] {
        let field = Field::of(&text, marked);
        for number in 0..=u8::MAX {
            field.refused(&format!("-{number}"), 7);
        }
        for spelling in MINUSES {
            field.refused(spelling, 7);
        }
    }
}

/// No other field of edition 2 has a minus.
#[test]
fn no_other_field() {
    for (text, marked) in [
        (WIDE_2, "job2,[3],2,2,3,9,sum,max"),
        (WIDE_2, "job2,3,2,2,3,[9],sum,max"),
        (WIDE_2, "state,[0],5"),
        (WIDE_2, "state,0,[5]"),
        (WIDE_2, "acts,[0],0,2,0,0,15,3"),
        (WIDE_2, "acts,0,[2],2,0,0,1,0"),
        (WIDE_2, "acts,0,0,[2],0,0,15,3"),
        (WIDE_2, "go,[0],0,1,1,0"),
        (WIDE_2, "go,0,[0],1,1,0"),
        (WIDE_2, "go,0,0,1,1,[0]"),
        (WIDE_2, "prop,[2]"),
        (WIDE_2, "or,0,[1]"),
        (WIDE_2, "next,[5],15,inf,2"),
        (WIDE_2, "next,5,[15],inf,2"),
        (WIDE_2, "next,5,15,[inf],2"),
        (WIDE_2, "until,1,0,15,[7],1"),
        (CATCH_2, "until,3,[4],2,0"),
    ] {
        let field = Field::of(text, marked);
        for spelling in MINUSES {
            field.refused(spelling, 7);
        }
        field.refused(&format!("-{}", field.now), 7);
    }
}

/// The comma or line end after a charge belongs to its form, which is tried before its
/// value and its kind.
#[test]
fn before_their_end() {
    for (field, ..) in costs() {
        let (end, rest) = field.after.split_at(1);
        for number in ["-1", "-15", "-16", "-255"] {
            for other in [";", " ", ",", "\n", "\r\n", "\t", "\0", " ,", "-", "--"] {
                if !other.starts_with(end) {
                    let marked = format!("{}[{number}]{other}{rest}", field.before);
                    expect_at(&marked, 7, &format!("{}: {number}{other:?}", field.name));
                }
            }
            let marked = format!("{}[{number}]", field.before);
            expect_at(&marked, 7, &format!("{}: the text ends", field.name));
        }
        expect_at(&format!("{}[-]", field.before), 7, &field.name);
    }
}

/// Reading stops at the minus, the field's first byte, whatever is wrong with it.
#[test]
fn places() {
    for (line, marked, number) in [
        ("acts,0,0,2,0,0,15,3", "acts,0,0,2,0,0,[-16],3", 3),
        ("acts,0,0,2,0,0,15,3", "acts,0,0,2,0,0,[-0],3", 7),
        ("acts,0,0,2,0,0,15,3", "acts,0,0,2,0,0,[-],3", 7),
        ("acts,0,0,2,0,0,15,3", "acts,0,0,2,0,0,[--3],3", 7),
        ("acts,0,0,2,0,0,15,3", "acts,0,0,2,0,0,[-256],3", 7),
        ("acts,0,0,2,0,0,15,3", "acts,0,0,2,0,0,15,[-3]", 13),
        ("acts,0,0,2,0,0,15,3", "acts,0,0,2,0,0,15,[-16]", 3),
        ("acts,0,0,2,0,0,15,3", "acts,0,0,2,0,[-3],15,3", 3),
        ("acts,0,0,2,0,0,15,3", "acts,0,0,2,[-3],-3,15,-3", 3),
        ("acts,0,2,2,0,0,1,0", "acts,0,2,2,0,0,-1,[-1]", 13),
        ("acts,0,2,2,0,0,1,0", "acts,0,2,2,0,0,[-1]", 7),
        ("acts,0,2,2,0,0,1,0", "acts,0,2,2,0,0,-1,[-1],0", 7),
        ("acts,1,1,1,0,0", "acts,1,1,1,0,[-1]", 3),
    ] {
        expect_at(&with_line(WIDE_2, line, marked), number, marked);
    }
}

/// From left to right: 13 of one field comes before what is wrong in a later one, and
/// after what is wrong in an earlier one.
#[test]
fn in_their_order() {
    let line = "acts,0,0,2,0,0,15,3";
    let charge = "acts,0,0,2,0,0,15,[-3]";
    let later = [
        ("acts,0,1,1,0,0", "acts,0,1,1,0,1"),
        ("acts,0,2,2,0,0,1,0", "acts,0,2,2,0,0,-16,0"),
        ("go,0,0,1,1,0", "go,0,2,1,1,0"),
        ("state,1,0", "state,1,8"),
        ("not,0", "not,1"),
        ("or,0,1", "xor,0,1"),
    ];
    for (other, wrong) in later {
        let text = with_line(&with_line(WIDE_2, line, charge), other, wrong);
        expect_at(&text, 13, wrong);
    }
    for (other, wrong, number) in [
        ("job2,3,2,2,3,9,sum,max", "job2,3,2,2,3,[33],sum,max", 2),
        ("job2,3,2,2,3,9,sum,max", "job2,3,2,2,3,9,sum,[min]", 7),
        ("state,0,5", "state,0,[8]", 3),
    ] {
        let text = with_line(WIDE_2, line, "acts,0,0,2,0,0,15,-3");
        expect_at(&with_line(&text, other, wrong), number, wrong);
    }
}

/// The kind words decide: the same line is read with sum, and refused with max.
#[test]
fn by_the_kind_words() {
    let text = with_line(WIDE_2, "acts,0,0,2,0,0,15,3", "acts,0,0,2,0,0,-15,3");
    let both = with_line(WIDE_2, "acts,0,0,2,0,0,15,3", "acts,0,0,2,0,0,-15,-3");
    for (words, number, of_both) in [
        ("sum,sum", 0, 0),
        ("sum,max", 0, 13),
        ("max,sum", 13, 13),
        ("max,max", 13, 13),
    ] {
        expect(&text.replace("sum,max", words), number, words);
        let block = expect(&both.replace("sum,max", words), of_both, words);
        if of_both == 0 {
            assert_eq!(block[cost(0, 0, 1, 0)..=cost(0, 0, 1, 1)], [241, 253]);
            assert_eq!(written(&block), both.replace("sum,max", words));
        }
    }
}

/// Every byte that the writer meets comes back as it was.
#[test]
fn written_and_read() {
    let mut job = smallest(1, 2, 1, 1, 1);
    job[count(0, 0)] = 2;
    for first in -15..=15 {
        for second in [-15, -1, 0, 1, 15, first] {
            job[cost(0, 0, 1, 0)] = cost_byte(first);
            job[cost(0, 0, 1, 1)] = cost_byte(second);
            let text = written(&job);
            assert!(text.contains(&format!("\nacts,0,0,2,0,0,{first},{second}\n")));
            assert!(expect(&text, 0, "a written text") == job);
        }
    }
}
