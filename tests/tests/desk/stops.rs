//! What `check` shows of a text that is refused: the line, and a mark under the
//! field.

use super::{changed, desk, ANSWERED, REFUSED};
use rbatl_tests::{jobs, text};

/// What stands on standard error after the refusal.
fn shown(text: &[u8]) -> String {
    let ran = desk("check", text);
    assert_eq!((ran.status, ran.out.as_str()), (REFUSED, ""), "{ran:?}");
    let (_, shown) = ran.err.split_once('\n').unwrap();
    shown.to_string()
}

#[test]
fn the_line_and_the_field() {
    let cases = [
        ("job,2", "jib,2", "line 1, column 1:\njib,2,1,3,1,6\n^\n"),
        (
            "acts,0,0,2,0,2",
            "acts,0,0,5,0,2",
            "line 3, column 10:\nacts,0,0,5,0,2\n         ^\n",
        ),
        (
            "until,3,4,2,0\n",
            "until,3,4,2,9\n",
            "line 23, column 13:\nuntil,3,4,2,9\n            ^\n",
        ),
        (
            "state,0,0\n",
            "state,0,0\r\n",
            "line 2, column 9:\nstate,0,0?\n        ^\n",
        ),
    ];
    for (from, to, expected) in cases {
        assert_eq!(shown(&changed(from, to)), expected, "{to:?}");
    }
}

/// A kind word, the last size before it, and a next state.
#[test]
fn edition_2() {
    let job = String::from_utf8(jobs::text("minutes.job")).unwrap();
    let cases = [
        (
            "sum,max",
            "sum,min",
            "line 1, column 20:\njob2,3,2,5,1,7,sum,min\n                   ^\n",
        ),
        (
            "7,sum,max",
            "7",
            "line 1, column 14:\njob2,3,2,5,1,7\n             ^\n",
        ),
        (
            "go,0,0,1,2,3",
            "go,0,0,1,5,3",
            "line 6, column 10:\ngo,0,0,1,5,3\n         ^\n",
        ),
    ];
    for (from, to, expected) in cases {
        assert_eq!(
            shown(job.replacen(from, to, 1).as_bytes()),
            expected,
            "{to:?}"
        );
    }
}

/// Under the minus of a charge that is refused.
#[test]
fn charges() {
    let job = String::from_utf8(jobs::text("minutes.job")).unwrap();
    for (cost, column) in [("2,-3", 18), ("-16,3", 16), ("-0,3", 16), ("--1,3", 16)] {
        let line = format!("acts,0,0,2,0,0,{cost}");
        let text = job.replacen("acts,0,0,2,0,0,2,3", &line, 1);
        let mark = " ".repeat(column - 1);
        let expected = format!("line 3, column {column}:\n{line}\n{mark}^\n");
        assert_eq!(shown(text.as_bytes()), expected, "{cost}");
    }
    let text = changed("acts,0,0,2,0,2", "acts,0,0,2,0,-2");
    let expected = "line 3, column 14:\nacts,0,0,2,0,-2\n             ^\n";
    assert_eq!(shown(&text), expected);
}

/// A text that ends too soon, one that goes on, and none.
#[test]
fn ends() {
    let catch = jobs::text("catch.job");
    let cut = &catch[..catch.len() - 1];
    assert_eq!(
        shown(cut),
        "line 23, column 13:\nuntil,3,4,2,0\n            ^\n"
    );
    let longer = [&catch, &b"prop,0\n"[..]].concat();
    assert_eq!(shown(&longer), "line 24, column 1:\nprop,0\n^\n");
    assert_eq!(shown(b""), "line 1, column 1:\n\n^\n");
}

/// Of a long line a part is shown, and no byte that a terminal may act on.
#[test]
fn long_lines_and_other_bytes() {
    let long = [&b"job,"[..], &[b'1'; 200]].concat();
    let expected = format!("line 1, column 5:\njob,{}\n    ^\n", "1".repeat(20));
    assert_eq!(shown(&long), expected);
    let rows = changed("acts,0,0,2,0,2", "acts,0,0,2,0,\x1b[2J");
    assert_eq!(
        shown(&rows),
        "line 3, column 14:\nacts,0,0,2,0,?[2J\n             ^\n"
    );
}

/// A text that is too long is not looked at.
#[test]
fn too_long() {
    let mut text = jobs::text("catch.job");
    text.resize(text::TEXT_BYTES, b'\n');
    assert!(shown(&text).starts_with("line 24, column 1:\n"));
    text.push(b'\n');
    assert_eq!(shown(&text), "");
}

/// The commands after check say the refusal alone.
#[test]
fn other_commands() {
    for line in &ANSWERED[1..] {
        let ran = desk(line, b"jib");
        assert_eq!(ran.err.lines().count(), 1, "{line}: {ran:?}");
    }
}
