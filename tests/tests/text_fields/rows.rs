//! The rows: operands, team and bounds.

use super::*;

#[test]
fn proposition_exists() {
    Field::of(WIDE, "prop,[2]").holds(row(0, LEFT), 0..=2, 5);
    Field::of(WIDE, "prop,[0]").holds(row(6, LEFT), 0..=2, 5);
    Field::of(&catch(), "prop,[0]").holds(row(0, LEFT), 0..=0, 5);
    let text = text_of(&smallest(1, 1, 1, 8, 1));
    Field::of(&text, "prop,[0]").holds(row(0, LEFT), 0..=7, 5);
}

#[test]
fn operands_name_lower_rows() {
    for (marked, i, operand) in [
        ("not,[0]", 1, LEFT),
        ("or,[0],1", 2, LEFT),
        ("or,0,[1]", 2, RIGHT),
        ("next,5,15,inf,[2]", 3, LEFT),
        ("always,7,0,3,[3]", 4, LEFT),
        ("until,2,inf,inf,[4],0", 5, LEFT),
        ("until,2,inf,inf,4,[0]", 5, RIGHT),
        ("or,[6],5", 7, LEFT),
        ("or,6,[5]", 7, RIGHT),
        ("until,1,0,15,[7],1", 8, LEFT),
        ("until,1,0,15,7,[1]", 8, RIGHT),
    ] {
        let last = i as u8 - 1;
        Field::of(WIDE, marked).holds(row(i, operand), 0..=last, 5);
    }
}

/// Row 31, the last that there can be, of every kind with operands.
#[test]
fn operands_of_row_31() {
    let rows = text_of(&smallest(1, 1, 1, 1, 32));
    let front = rows.strip_suffix("prop,0\n").expect("the last row");
    for (marked, operand) in [
        ("not,[30]", LEFT),
        ("or,[30],0", LEFT),
        ("or,0,[30]", RIGHT),
        ("next,1,0,[30]", LEFT),
        ("always,1,0,[30]", LEFT),
        ("until,1,0,[30],0", LEFT),
        ("until,1,0,0,[30]", RIGHT),
    ] {
        let text = format!("{front}{}\n", marked.replace(['[', ']'], ""));
        Field::of(&text, marked).holds(row(31, operand), 0..=30, 5);
    }
}

/// There is no row below row 0.
#[test]
fn row_0_has_no_operand() {
    let front = text_of(&smallest(2, 1, 1, 1, 1));
    let front = front.strip_suffix("prop,0\n").expect("the only row");
    for row in [
        "not,0",
        "or,0,0",
        "next,1,0,0",
        "always,1,0,0",
        "until,1,0,0,0",
    ] {
        expect(&format!("{front}{row}\n"), 5, row);
    }
}

#[test]
fn team_of_agents_that_exist() {
    for agents in 1..=MAX_AGENTS {
        let text = text_of(&smallest(agents, 1, 1, 1, 2));
        let front = text.strip_suffix("prop,0\n").expect("the last row");
        for marked in ["next,[1],0,0", "always,[1],0,0", "until,[1],0,0,0"] {
            let text = format!("{front}{}\n", marked.replace(['[', ']'], ""));
            let most = (1 << agents) - 1;
            Field::of(&text, marked).holds(row(1, COALITION), 1..=most, 5);
        }
    }
}

/// Each bound of each kind, between other bounds and alone.
fn bounds() -> Vec<(Field, usize)> {
    let catch = catch();
    [
        (WIDE, "next,5,[15],inf,2", row(3, BOUND)),
        (WIDE, "next,5,15,[inf],2", row(3, BOUND + 1)),
        (WIDE, "always,7,[0],3,3", row(4, BOUND)),
        (WIDE, "always,7,0,[3],3", row(4, BOUND + 1)),
        (WIDE, "until,2,[inf],inf,4,0", row(5, BOUND)),
        (WIDE, "until,2,inf,[inf],4,0", row(5, BOUND + 1)),
        (WIDE, "until,1,[0],15,7,1", row(8, BOUND)),
        (WIDE, "until,1,0,[15],7,1", row(8, BOUND + 1)),
        (&catch, "until,1,[5],2,0", row(3, BOUND)),
        (&catch, "until,3,[4],2,0", row(5, BOUND)),
    ]
    .map(|(text, marked, place)| (Field::of(text, marked), place))
    .into()
}

#[test]
fn bound_as_a_number() {
    for (field, place) in bounds() {
        for value in 0..=15 {
            let spelling = value.to_string();
            field.read(&spelling, place, value, &spelling);
        }
        for value in 16..=255 {
            field.refused(&value.to_string(), 5);
        }
        for spelling in NO_NUMBERS
            .into_iter()
            .filter(|spelling| !spelling.is_empty())
        {
            field.refused(spelling, 7);
        }
        field.wants_its_end();
    }
}

#[test]
fn bound_unlimited() {
    for (field, place) in bounds() {
        field.read("inf", place, UNLIMITED, "inf");
        for spelling in [
            "INF", "Inf", "inF", "i", "in", "nf", "infi", "infinity", "inf ", " inf", "-inf",
            "+inf", "inf0", "0inf", "inf\r", "inf\n", "inf;", "inff", "oo", "\u{221e}",
        ] {
            field.refused(spelling, 7);
        }
    }
}

/// A field without any byte is a bound of 0; one of one space is no bound.
#[test]
fn bound_left_empty() {
    for (field, place) in bounds() {
        field.read("", place, 0, "0");
        for spelling in [
            " ", "  ", "\t", "\r", "\n", "\0", "-", "+", "\"\"", "''", "_",
        ] {
            field.refused(spelling, 7);
        }
    }
}

/// An empty bound is not one bound less.
#[test]
fn number_of_bounds() {
    for (line, other) in [
        ("next,5,15,inf,2", "next,5,15,2"),
        ("next,5,15,inf,2", "next,5,2"),
        ("next,5,15,inf,2", "next,5,15,inf,0,2"),
        ("next,5,15,inf,2", "next,5,,,,2"),
        ("always,7,0,3,3", "always,7,0,3"),
        ("always,7,0,3,3", "always,7,,3"),
        ("until,1,0,15,7,1", "until,1,0,7,1"),
        ("until,1,0,15,7,1", "until,1,,7,1"),
        ("until,1,0,15,7,1", "until,1,,,,7,1"),
    ] {
        expect(&with_line(WIDE, line, other), 7, other);
    }
}

/// No other field of a row may be empty.
#[test]
fn number_of_operands() {
    for (line, other) in [
        ("prop,2", "prop"),
        ("prop,2", "prop,"),
        ("prop,2", "prop,2,"),
        ("prop,2", "prop,2,0"),
        ("not,0", "not"),
        ("not,0", "not,"),
        ("not,0", "not,0,0"),
        ("or,0,1", "or,0"),
        ("or,0,1", "or,0,"),
        ("or,0,1", "or,,1"),
        ("or,0,1", "or,0,1,0"),
        ("next,5,15,inf,2", "next,,15,inf,2"),
        ("next,5,15,inf,2", "next,5,15,inf,"),
        ("next,5,15,inf,2", "next,5,15,inf"),
        ("next,5,15,inf,2", "next,5,15,inf,2,2"),
        ("always,7,0,3,3", "always,7,0,3,3,3"),
        ("until,1,0,15,7,1", "until,1,0,15,7"),
        ("until,1,0,15,7,1", "until,1,0,15,7,"),
        ("until,1,0,15,7,1", "until,1,0,15,,1"),
        ("until,1,0,15,7,1", "until,1,0,15,7,1,1"),
    ] {
        expect(&with_line(WIDE, line, other), 7, other);
    }
}
