//! Actions that charge: stocks that rise up to the bound, and what is said and drawn of
//! them. What is due is worked out by hand.

use super::{desk, Says, LOST};
use rbatl_tests::jobs;
use rbatl_tests::process::Ran;

fn cradle(line: &str) -> Ran {
    desk(line, &jobs::text("cradle.job"))
}

/// What is printed after the row.
fn lines(ran: Ran) -> Vec<String> {
    let printed = ran.answer();
    printed.lines().skip(1).map(String::from).collect()
}

/// One agent, whose action 1 leads from each state to the next at these costs; row 2
/// asks whether it comes to the last within the bound.
fn way(costs: &[i32], bound: u8) -> Vec<u8> {
    let last = costs.len();
    let mut text = format!("job2,1,1,{},1,3,sum\n", last + 1);
    for (state, cost) in costs.iter().enumerate() {
        let next = state + 1;
        text += &format!("state,{state},0\nacts,{state},0,2,0,{cost}\ngo,{state},{state},{next}\n");
    }
    text += &format!("state,{last},1\nacts,{last},0,1,0\ngo,{last},{last}\n");
    text += &format!("prop,0\nnot,0\nuntil,1,{bound},1,0\n");
    text.into_bytes()
}

/// With bound 5, stock 4 and cost -3 the stock is 5 (document 02, R-7).
#[test]
fn a_full_battery_takes_no_more() {
    let turn = |state, stock| {
        format!("state {state}, stock {stock}: move 1: agent 0 action 1; reply 0: nobody")
    };
    let due = [
        &turn(0, 5),
        &turn(1, 4),
        &turn(2, 5),
        "state 3, stock 0",
        "finished after 3 moves: row 0 is true in state 3",
    ];
    let job = way(&[1, -3, 5], 5);
    assert_eq!(lines(desk("rehearse 2 0 0 0 0", &job)), due);
    let due = [
        "state 0: enough: 5 of resource 0",
        "state 0: nothing smaller is enough",
    ];
    assert_eq!(lines(desk("needs 2 0", &job)), due);
    // 6 units are never there, though 5 - 1 + 3 are more.
    let job = way(&[1, -3, 6], 5);
    assert!(desk("move 2 0 5", &job).refused(10));
    assert!(desk("move 2 1 5", &job).refused(10));
    assert!(desk("reply 2 2 5 1", &job).refused(11));
}

/// The largest charge, and one from nothing.
#[test]
fn of_15_units() {
    let due = [
        "state 0, stock 15: move 1: agent 0 action 1; reply 0: nobody",
        "state 1, stock 0: move 1: agent 0 action 1; reply 0: nobody",
        "state 2, stock 15: move 1: agent 0 action 1; reply 0: nobody",
        "state 3, stock 0",
        "finished after 3 moves: row 0 is true in state 3",
    ];
    let job = way(&[15, -15, 15], 15);
    assert_eq!(lines(desk("rehearse 2 0 0 0 0", &job)), due);
}

/// Two rounds of the cradle while the plant trips the supply each time: more moves
/// than there are states.
#[test]
fn round_the_cradle() {
    let due = "row 4: coalition 0, 1 within 5, inf: row 2 until row 0\n\
               state 0, stock 5, 0: move 1: agent 0 action 1, agent 1 idle; reply 0: agent 2 idle\n\
               state 1, stock 2, 0: move 4: agent 0 idle, agent 1 action 1; reply 16: agent 2 action 1\n\
               state 2, stock 4, 0: move 5: agent 0 action 1, agent 1 action 1; reply 0: agent 2 idle\n\
               state 1, stock 3, 0: move 4: agent 0 idle, agent 1 action 1; reply 16: agent 2 action 1\n\
               state 2, stock 5, 0: move 5: agent 0 action 1, agent 1 action 1; reply 0: agent 2 idle\n\
               state 1, stock 4, 0: move 5: agent 0 action 1, agent 1 action 1; reply 16: agent 2 action 1\n\
               state 3, stock 0, 0\n\
               finished after 6 moves: row 0 is true in state 3\n";
    assert_eq!(cradle("rehearse 4 0 0 16 0 16 0 16").answer(), due);
    let table = cradle("table 4").answer();
    for line in [
        "states: 0 1 2 3",
        "state 0, stock 5, 0: rank 6, move 1: agent 0 action 1, agent 1 idle",
        "state 0, stock 2, 0: rank never, no move",
        "state 1, stock 0, 0: rank 9, move 4: agent 0 idle, agent 1 action 1",
        "state 1, stock 4, 0: rank 1, move 5: agent 0 action 1, agent 1 action 1",
        "state 2, stock 0, 0: rank never, no move",
    ] {
        assert!(table.lines().any(|due| due == line), "{line} in\n{table}");
    }
}

/// With one unit less the ceiling holds each round up.
#[test]
fn under_a_lower_bound() {
    let due = [
        "state 1, stock 4, 0: move 5: agent 0 action 1, agent 1 action 1".to_string(),
        format!("state 1, stock 3, 0: {LOST}"),
        format!("state 2, stock 4, 0: {LOST}"),
    ];
    let printed = cradle("sheet 6 1:4:0 1:3:0 2:4:0").answer();
    assert_eq!(printed.lines().collect::<Vec<_>>(), due);
    let trips = cradle("reply 6 1 3 0 4").answer();
    assert_eq!(trips, "reply 16: agent 2 action 1\n");
    // The move costs 6 - 2, which 3 units do not pay.
    assert!(cradle("reply 6 1 3 0 5").refused(11));
}

/// What a charge gives back pays for ever, here as long as a script goes.
#[test]
fn of_always() {
    let due = [
        "state 1, stock 1, 0: move 0: agent 0 idle, agent 1 idle; reply 16: agent 2 action 1",
        "state 2, stock 1, 0: move 5: agent 0 action 1, agent 1 action 1; reply 0: agent 2 idle",
        "state 1, stock 0, 0: move 4: agent 0 idle, agent 1 action 1; reply 16: agent 2 action 1",
        "state 2, stock 1, 0",
        "finished after 3 moves: row 3 is true in every state so far",
    ];
    assert_eq!(lines(cradle("rehearse 8 1 16 0 16")), due);
    let printed = lines(cradle(&format!("rehearse 8 1 16{}", " 0 16".repeat(127))));
    assert_eq!(printed.len(), 255 + 2);
    for (turn, line) in printed[3..255].iter().enumerate() {
        assert_eq!(*line, due[1 + turn % 2], "{turn}");
    }
}

/// A battery that is emptied on the way into a ring of 22 states, of which one charges
/// 1 unit, and has to be full to leave it.
fn ring() -> Vec<u8> {
    let mut text = "job2,1,1,24,1,3,sum\nstate,0,0\nacts,0,0,2,0,15\ngo,0,0,1\n".to_string();
    text += "state,1,0\nacts,1,0,3,0,-1,15\ngo,1,1,2,23\n";
    for state in 2..=22 {
        let next = if state == 22 { 1 } else { state + 1 };
        text += &format!("state,{state},0\nacts,{state},0,1,0\ngo,{state},{next}\n");
    }
    text += "state,23,1\nacts,23,0,1,0\ngo,23,23\nprop,0\nnot,0\nuntil,1,15,1,0\n";
    text.into_bytes()
}

/// 15 rounds take more moves than the longest script has replies.
#[test]
fn longer_than_a_script() {
    let table = desk("table 2", &ring()).answer();
    let first = "state 0, stock 15: rank 332, move 1: agent 0 action 1";
    assert!(table.lines().any(|line| line == first), "{table}");
    let printed = lines(desk(&format!("rehearse 2 0{}", " 0".repeat(255)), &ring()));
    assert_eq!(printed.len(), 255 + 2);
    let due = [
        "state 13, stock 12",
        "unfinished after 255 moves: the replies end before row 0 is true",
    ];
    assert_eq!(printed[255..], due);
}

/// A larger battery saves rounds; without the charge, and for the instrument alone,
/// nothing but a larger battery helps.
#[test]
fn needs_of_the_cradle() {
    let due = [
        "state 0: enough: 5 of resource 0 and 8 of resource 1",
        "state 0: enough: 6 of resource 0 and 6 of resource 1",
        "state 0: enough: 7 of resource 0 and 4 of resource 1",
        "state 0: nothing smaller is enough",
    ];
    assert_eq!(lines(cradle("needs 5 0")), due);
    let text = String::from_utf8(jobs::text("cradle.job")).unwrap();
    let due = [
        "state 0: enough: 9 of resource 0 and 4 of resource 1",
        "state 0: nothing smaller is enough",
    ];
    let without = text.replace("-2", "0");
    assert_eq!(lines(desk("needs 5 0", without.as_bytes())), due);
    let due = [
        "state 0: enough: 9 of resource 0 and resource 1 unlimited",
        "state 0: nothing smaller is enough",
    ];
    assert_eq!(lines(cradle("needs 7 0")), due);
}

/// A charge is drawn as a cost with a minus.
#[test]
fn drawings() {
    let printed = desk("dot 2", &way(&[1, -3, 5], 5)).answer();
    for node in [
        "s0 [label=\"state 0\\nmove (1), cost 1\\nrank 3\", ",
        "s1 [label=\"state 1\\nmove (1), cost -3\\nrank 2\", ",
        "s2 [label=\"state 2\\nmove (1), cost 5\\nrank 1\", ",
        "s3 [label=\"state 3\\np0\\nrank 0\", ",
    ] {
        assert!(printed.contains(node), "{node} in\n{printed}");
    }
    let printed = cradle("dot 4").answer();
    for node in [
        "s0 [label=\"state 0\\nmove (1,0,*), cost 3 and 2\\nrank 6\", ",
        "s1 [label=\"state 1\\np1\\nmove (1,1,*), cost 4 and 2\\nrank 1\", ",
    ] {
        assert!(printed.contains(node), "{node} in\n{printed}");
    }
}

/// What the agents of a team cost and charge is one sum.
#[test]
fn drawings_of_sums() {
    for (first, second, cost) in [
        ("2", "-3", "-1"),
        ("3", "-3", "0"),
        ("-15", "-15", "-30"),
        ("0", "-1", "-1"),
    ] {
        let job = format!(
            "job2,2,1,2,1,2,sum\n\
             state,0,0\nacts,0,0,2,0,{first}\nacts,0,1,2,0,{second}\ngo,0,0,0,0,1\n\
             state,1,1\nacts,1,0,1,0\nacts,1,1,1,0\ngo,1,1\n\
             prop,0\nnext,3,0,0\n"
        );
        let printed = desk("dot 1", job.as_bytes()).answer();
        let node = format!("s0 [label=\"state 0\\nmove (1,1), cost {cost}\", ");
        assert!(printed.contains(&node), "{node} in\n{printed}");
    }
}
