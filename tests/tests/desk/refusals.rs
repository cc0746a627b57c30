//! Every refusal that can be reached, and both sides of each border.

use super::{changed, desk, Says, ANSWERED};
use rbatl_tests::layout::*;
use rbatl_tests::process::Ran;
use rbatl_tests::{jobs, text};

fn catch(line: &str) -> Ran {
    desk(line, &jobs::text("catch.job"))
}

fn passes(text: &[u8]) -> bool {
    let ran = desk("check", text);
    ran.status == 0 && ran.out.starts_with("passes: ") && ran.err.is_empty()
}

/// Every command refuses the text with the number.
fn all_refuse(text: &[u8], number: u8) {
    for line in ANSWERED {
        let ran = desk(line, text);
        assert!(ran.refused(number), "{line}: {ran:?}");
    }
}

#[test]
fn texts_of_32768_and_32769_bytes() {
    for name in jobs::names() {
        let mut text = jobs::text(&name);
        text.resize(text::TEXT_BYTES, b'\n');
        all_refuse(&text, 7);
        text.push(b'\n');
        all_refuse(&text, 1);
    }
}

#[test]
fn sizes() {
    let good = [[1, 1, 1, 1, 1], [3, 2, 24, 8, 32]];
    for [agents, resources, states, propositions, rows] in good {
        let job = jobs::smallest(agents, resources, states, propositions, rows);
        assert!(passes(&text::write(&job)));
    }
    for line in [
        "job,0,1,1,1,1",
        "job,4,1,1,1,1",
        "job,1,0,1,1,1",
        "job,1,3,1,1,1",
        "job,1,1,0,1,1",
        "job,2,1,25,1,6",
        "job,1,1,1,0,1",
        "job,1,1,1,9,1",
        "job,1,1,1,1,0",
        "job,1,1,1,1,33",
    ] {
        all_refuse(&changed("job,2,1,3,1,6", line), 2);
    }
}

/// The kind words of edition 2, and its `go` line.
#[test]
fn edition_2() {
    let job = String::from_utf8(jobs::text("minutes.job")).unwrap();
    let with = |old: &str, new: &str| job.replacen(old, new, 1).into_bytes();
    assert!(passes(&with("sum,max", "max,sum")));
    all_refuse(&with("sum,max", "sum,min"), 7);
    all_refuse(&with("sum,max", "sum"), 7);
    all_refuse(&with("sum,max", "sum,max,sum"), 7);
    all_refuse(&with("job2,3,", "job2,9,"), 2);
    all_refuse(&with("job2,", "job3,"), 7);
    assert!(passes(&with("go,0,0,1,2,3", "go,0,0,1,2,4")));
    all_refuse(&with("go,0,0,1,2,3", "go,0,0,1,2,5"), 4);
    all_refuse(&with("go,0,0,1,2,3", "go,0,0,1,2"), 7);
    all_refuse(&with("go,0,0,1,2,3", "go,0,0,1,2,3,4"), 7);
}

/// The costs of edition 2: minutes.job with another charge of one action, which is
/// resource 0's, of kind sum.
#[test]
fn charges() {
    let job = String::from_utf8(jobs::text("minutes.job")).unwrap();
    let with = |costs: &str| {
        let line = format!("acts,0,0,2,{costs}\n");
        job.replacen("acts,0,0,2,0,0,2,3\n", &line, 1).into_bytes()
    };
    for cost in ["-1", "-9", "-10", "-15", "15"] {
        assert!(passes(&with(&format!("0,0,{cost},3"))), "{cost}");
    }
    for cost in ["-16", "-99", "-100", "-255", "16", "255"] {
        all_refuse(&with(&format!("0,0,{cost},3")), 3);
    }
    for cost in [
        "-0", "-", "--1", "-01", "-00", "-256", "-1000", "- 1", "-1 ", "+1", "1-", "-a", "−1",
    ] {
        all_refuse(&with(&format!("0,0,{cost},3")), 7);
    }
    // Idle charges nothing, of either kind.
    all_refuse(&with("-1,0,2,3"), 3);
    all_refuse(&with("0,-1,2,3"), 3);
}

/// A charge on minutes, which are of kind max, after 3 and before the next states.
#[test]
fn charges_of_kind_max() {
    let job = String::from_utf8(jobs::text("minutes.job")).unwrap();
    let with = |old: &str, new: &str| job.replacen(old, new, 1);
    for charge in ["-1", "-3", "-15"] {
        let text = with("acts,0,0,2,0,0,2,3", &format!("acts,0,0,2,0,0,2,{charge}"));
        all_refuse(text.as_bytes(), 13);
        let later = text.replacen("go,0,0,1,2,3", "go,0,0,1,2,9", 1);
        all_refuse(later.as_bytes(), 13);
        let sooner = text.replacen("state,0,0", "state,0,2", 1);
        all_refuse(sooner.as_bytes(), 3);
        // In minutes-sum.job both are of kind sum.
        let summed = text.replacen("sum,max", "sum,sum", 1);
        assert!(passes(summed.as_bytes()), "{charge}");
    }
    for (charge, number) in [("-16", 3), ("-255", 3), ("-0", 7), ("-256", 7)] {
        let text = with("acts,0,0,2,0,0,2,3", &format!("acts,0,0,2,0,0,2,{charge}"));
        all_refuse(text.as_bytes(), number);
    }
    let text = with("acts,0,0,2,0,0,2,3", "acts,0,0,2,0,0,2,-3");
    let said = desk("list", text.as_bytes()).err;
    let words = "desk: refused, 13: an action charges a resource of kind max\n";
    assert_eq!(said, words);
}

/// Edition 1 has no minus, whatever follows it.
#[test]
fn charges_in_edition_1() {
    for cost in ["-1", "-2", "-15", "-16", "-255", "-0", "-", "--1"] {
        let line = format!("acts,0,0,2,0,{cost}");
        all_refuse(&changed("acts,0,0,2,0,2", &line), 7);
    }
    all_refuse(&changed("acts,0,0,2,0,2", "acts,0,0,2,-1,2"), 7);
}

#[test]
fn states() {
    assert!(passes(&changed("state,0,0", "state,0,1")));
    all_refuse(&changed("state,0,0", "state,0,2"), 3);
    all_refuse(&changed("acts,0,0,2,0,2", "acts,0,0,0"), 7);
    all_refuse(&changed("acts,0,0,2,0,2", "acts,0,0,0,"), 3);
    all_refuse(&changed("acts,0,0,2,0,2", "acts,0,0,5,0,2"), 3);
    assert!(passes(&changed("acts,0,0,2,0,2", "acts,0,0,2,0,15")));
    all_refuse(&changed("acts,0,0,2,0,2", "acts,0,0,2,0,16"), 3);
    all_refuse(&changed("acts,1,0,2,0,3", "acts,1,0,2,1,3"), 3);
    let mut four = jobs::smallest(1, 1, 1, 1, 1);
    four[count(0, 0)] = 4;
    assert!(passes(&text::write(&four)));
}

#[test]
fn next_states() {
    assert!(passes(&changed("go,2,0,0,2", "go,2,0,0,0")));
    all_refuse(&changed("go,2,0,0,2", "go,2,0,0,3"), 4);
}

#[test]
fn rows() {
    all_refuse(&changed("not,0", "not,1"), 5);
    all_refuse(&changed("prop,0", "prop,1"), 5);
    assert!(passes(&changed("until,3,4,2,0", "until,3,4,2,4")));
    all_refuse(&changed("until,3,4,2,0", "until,3,4,2,5"), 5);
    all_refuse(&changed("until,3,4,2,0", "until,0,4,2,0"), 5);
    all_refuse(&changed("until,3,4,2,0", "until,4,4,2,0"), 5);
    assert!(passes(&changed("until,3,4,2,0", "until,3,15,2,0")));
    all_refuse(&changed("until,3,4,2,0", "until,3,16,2,0"), 5);
    all_refuse(&changed("until,3,4,2,0", "until,3,255,2,0"), 5);
    assert!(passes(&changed("until,3,4,2,0", "until,3,inf,2,0")));
    assert!(passes(&changed("until,3,4,2,0", "until,3,,2,0")));
}

#[test]
fn forms() {
    let catch = jobs::text("catch.job");
    all_refuse(b"", 7);
    all_refuse(&catch[..catch.len() - 1], 7);
    all_refuse(&[&catch[..], b"\n"].concat(), 7);
    all_refuse(&[&catch[..], b"\0"].concat(), 7);
    all_refuse(&changed("state,0,0", "state,00,0"), 7);
    all_refuse(&changed("go,0,1,0,1", "go,0,2,0,1"), 7);
    all_refuse(&changed("until,3,4,2,0", "until,3,256,2,0"), 7);
    all_refuse(&changed("job,2", "Job,2"), 7);
    all_refuse(&changed("state,0,0\n", "state,0,0\r\n"), 7);
}

/// The row: absent, or without a table. Drawing wants its set alone.
#[test]
fn row_choices() {
    for row in [0, 1, 2, 6, 255] {
        for line in [
            format!("table {row}"),
            format!("move {row} 0 0"),
            format!("reply {row} 0 0 0"),
            format!("sheet {row} 0:0 9:9"),
            format!("needs {row} 0"),
            format!("needs {row} 9"),
            format!("rehearse {row} 0"),
            format!("rehearse {row} 9 99"),
        ] {
            assert!(catch(&line).refused(8), "{line}");
        }
    }
    for row in [3, 4, 5] {
        assert_eq!(catch(&format!("table {row}")).status, 0);
    }
    for row in [6, 31, 32, 255] {
        assert!(catch(&format!("dot {row}")).refused(8), "{row}");
    }
    for row in 0..6 {
        assert_eq!(catch(&format!("dot {row}")).status, 0);
    }
}

#[test]
fn positions() {
    assert_eq!(catch("move 3 1 5").status, 0);
    assert!(catch("move 3 1 6").refused(9));
    assert!(catch("move 3 1 255").refused(9));
    assert_eq!(catch("move 3 2 5").status, 0);
    assert!(catch("move 3 3 5").refused(9));
    assert!(catch("reply 3 0 6 1").refused(9));
    assert!(catch("reply 3 3 5 1").refused(9));
    assert_eq!(catch("needs 3 2").status, 0);
    assert!(catch("needs 3 3").refused(9));
    assert!(catch("needs 3 255").refused(9));
    assert_eq!(catch("rehearse 3 2").status, 0);
    assert!(catch("rehearse 3 3").refused(9));
    assert!(catch("rehearse 3 255 99").refused(9));
    let sensor = jobs::text("sensor.job");
    assert_eq!(desk("move 3 0 3 1", &sensor).status, 0);
    assert!(desk("move 3 0 4 1", &sensor).refused(9));
    assert!(desk("move 3 0 3 2", &sensor).refused(9));
    // An unlimited resource has no stock but 0.
    assert_eq!(desk("reply 4 0 0 0 0", &sensor).status, 0);
    assert!(desk("reply 4 0 1 0 0", &sensor).refused(9));
}

#[test]
fn sides() {
    assert!(catch("move 3 0 5").refused(10));
    assert_eq!(catch("reply 3 0 5 1").status, 0);
    assert!(catch("move 4 0 4").refused(10));
    assert_eq!(catch("move 4 0 5").status, 0);
    assert!(catch("reply 4 0 5 1").refused(10));
    assert_eq!(catch("reply 4 0 4 1").status, 0);
    for replies in ["", " 0", " 99", " 0 4 0"] {
        assert!(catch(&format!("rehearse 3 0{replies}")).refused(10));
        assert!(catch(&format!("rehearse 5 0{replies}")).refused(10));
    }
    assert_eq!(catch("rehearse 4 0").status, 0);
}

#[test]
fn moves() {
    assert_eq!(catch("reply 3 0 2 1").status, 0);
    assert!(catch("reply 3 0 1 1").refused(11));
    assert!(catch("reply 3 0 5 2").refused(11));
    assert!(catch("reply 3 0 5 4").refused(11));
    assert_eq!(catch("reply 4 0 4 5").status, 0);
    assert!(catch("reply 4 0 4 6").refused(11));
    assert!(catch("reply 4 0 4 255").refused(11));
}

/// In state 1 of Catch agent 1 can idle alone, and nobody is outside row 4's team.
#[test]
fn replies() {
    assert_eq!(catch("rehearse 3 1 0").status, 0);
    for number in [1, 3, 4, 5, 8, 16, 63, 64, 255] {
        assert!(catch(&format!("rehearse 3 1 {number}")).refused(12));
        assert!(catch(&format!("rehearse 4 0 {number}")).refused(12));
        assert!(catch(&format!("rehearse 4 0 0 {number}")).refused(12));
        // Past the end it is not looked at.
        assert_eq!(catch(&format!("rehearse 3 1 0 {number}")).status, 0);
        assert_eq!(catch(&format!("rehearse 3 2 {number}")).status, 0);
    }
}
