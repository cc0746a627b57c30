//! The `go` line of edition 2: a state and its next states.

use super::*;

#[test]
fn state_index() {
    for marked in ["go,[0],0,1,1,0", "go,[1],1"] {
        Field::of(WIDE_2, marked).is_fixed();
    }
    Field::of(CATCH_2, "go,[2],2").is_fixed();
    let text = text_in(Edition::Two, &smallest(1, 1, 24, 1, 1));
    Field::of(&text, "go,[23],0").is_fixed();
}

#[test]
fn next_state_exists() {
    for (marked, place) in [
        ("go,0,[0],1,1,0", next(0, 0)),
        ("go,0,0,[1],1,0", next(0, 1)),
        ("go,0,0,1,[1],0", next(0, 16)),
        ("go,0,0,1,1,[0]", next(0, 17)),
        ("go,1,[1]", next(1, 0)),
    ] {
        Field::of(WIDE_2, marked).holds(place, 0..=1, 4);
    }
    for (marked, place) in [
        ("go,0,[0],1,0,0", next(0, 0)),
        ("go,0,0,1,0,[0]", next(0, 5)),
        ("go,1,1,[2]", next(1, 1)),
    ] {
        Field::of(CATCH_2, marked).holds(place, 0..=2, 4);
    }
    next_states_are_states(Edition::Two, "");
}

/// One next state for each joint action, no fewer and no more; the field with the
/// wrong end answers, before its value.
#[test]
fn number_of_next_states() {
    for (line, marked) in [
        ("go,0,0,1,0,0", "go,0,0,1,[0]"),
        ("go,0,0,1,0,0", "go,0,0,1,[3]"),
        ("go,0,0,1,0,0", "go,0,0,1,0,[0],0"),
        ("go,0,0,1,0,0", "go,0,0,1,0,[3],0"),
        ("go,0,0,1,0,0", "go,0,0,1,0,[0],"),
        ("go,0,0,1,0,0", "go,0,0,1,0,[]"),
        ("go,0,0,1,0,0", "go,0,[0]"),
        ("go,0,0,1,0,0", "go,0,[]"),
        ("go,0,0,1,0,0", "go,[0]"),
        ("go,0,0,1,0,0", "go,0,[],1,0,0"),
        ("go,2,2", "go,2,[2],2"),
        ("go,2,2", "go,2,[2],"),
        ("go,2,2", "go,2,[]"),
        ("go,2,2", "go,[2]"),
    ] {
        expect_at(&with_line(CATCH_2, line, marked), 7, marked);
    }
}

/// A value that is refused answers before what follows its end.
#[test]
fn next_state_before_what_follows() {
    for (line, marked) in [
        ("go,0,0,1,0,0", "go,0,[3],x,0,0"),
        ("go,0,0,1,0,0", "go,0,0,[255],0"),
        ("go,0,0,1,0,0", "go,0,0,1,0,[3]"),
        ("go,2,2", "go,2,[3]"),
    ] {
        expect_at(&with_line(CATCH_2, line, marked), 4, marked);
    }
}

/// All next states stand in one line, which is the state's own.
#[test]
fn one_line_for_a_state() {
    let line = "go,0,0,1,0,0";
    for other in [
        "go,0,0,1\ngo,0,0,0",
        "go,0,0\ngo,0,1\ngo,0,0\ngo,0,0",
        "go,0,0,1,0,0\ngo,0,0,1,0,0",
        "go,1,1,2",
        "gos,0,0,1,0,0",
        "go0,0,1,0,0",
        "go",
    ] {
        expect(&with_line(CATCH_2, line, other), 7, other);
    }
    let moved = with_line(CATCH_2, "acts,0,1,2,0,0", "@");
    let moved = with_line(&moved, line, "acts,0,1,2,0,0");
    expect(&moved.replace('@', line), 7, "before the last acts line");
    expect(&CATCH_2.replace("go,0,0,1,0,0\n", ""), 7, "no go line");
}

/// In rising joint number, whatever the counts: agent 0's action runs fastest.
#[test]
fn rising_joint_number() {
    let mut job = smallest(3, 1, 24, 1, 1);
    for (agent, actions) in [2, 3, 2].into_iter().enumerate() {
        job[count(0, agent)] = actions;
    }
    let joints: Vec<usize> = joint_actions(&job, 0).collect();
    assert_eq!(joints, [0, 1, 4, 5, 8, 9, 16, 17, 20, 21, 24, 25]);
    for (place, joint) in joints.into_iter().enumerate() {
        job[next(0, joint)] = place as u8 + 1;
    }
    let text = text_in(Edition::Two, &job);
    assert!(
        text.contains("\ngo,0,1,2,3,4,5,6,7,8,9,10,11,12\n"),
        "{text}"
    );
    assert!(expect(&text, 0, "twelve joint actions") == job);
    assert_eq!(written(&job), text);
}
