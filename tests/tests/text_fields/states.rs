//! The lines `state`, `acts` and `go`.

use super::*;

#[test]
fn state_index() {
    for marked in ["state,[0],5", "state,[1],0"] {
        Field::of(WIDE, marked).is_fixed();
    }
    for marked in ["state,[0],0", "state,[2],1"] {
        Field::of(&catch(), marked).is_fixed();
    }
}

/// A state number of two digits.
#[test]
fn state_index_23() {
    let text = text_of(&smallest(1, 1, 24, 1, 1));
    Field::of(&text, "state,[23],0").is_fixed();
    Field::of(&text, "acts,[23],0,1,0").is_fixed();
    Field::of(&text, "go,[23],0,0").is_fixed();
}

#[test]
fn mask_of_propositions_that_exist() {
    Field::of(WIDE, "state,0,[5]").holds(mask(0), 0..=7, 3);
    Field::of(WIDE, "state,1,[0]").holds(mask(1), 0..=7, 3);
    Field::of(&catch(), "state,2,[1]").holds(mask(2), 0..=1, 3);
    for propositions in 1..=MAX_PROPOSITIONS {
        let text = text_of(&smallest(1, 1, 1, propositions, 1));
        let most = ((1 << propositions) - 1) as u8;
        Field::of(&text, "state,0,[0]").holds(mask(0), 0..=most, 3);
    }
}

#[test]
fn acts_indices() {
    for marked in [
        "acts,[0],0,2,0,0,15,3",
        "acts,0,[0],2,0,0,15,3",
        "acts,[0],2,2,0,0,1,0",
        "acts,0,[2],2,0,0,1,0",
        "acts,[1],1,1,0,0",
        "acts,1,[1],1,0,0",
    ] {
        Field::of(WIDE, marked).is_fixed();
    }
}

#[test]
fn count_out_of_range() {
    for (text, marked) in [
        (WIDE.to_string(), "acts,0,0,[2],0,0,15,3"),
        (WIDE.to_string(), "acts,1,2,[1],0,0"),
        (catch(), "acts,1,0,[2],0,3"),
        (catch(), "acts,2,1,[1],0"),
    ] {
        let field = Field::of(&text, marked);
        field.wants_a_number();
        field.refused("0", 3);
        for value in 5..=255 {
            field.refused(&value.to_string(), 3);
        }
    }
}

/// With the costs and `go` lines that it asks for, every count is read.
#[test]
fn count_in_range() {
    for agents in 1..=MAX_AGENTS {
        for resources in 1..=MAX_RESOURCES {
            for actions in 1..=MAX_ACTIONS {
                let mut expected = smallest(agents, resources, 2, 1, 1);
                expected[count(1, agents - 1)] = actions as u8;
                let name = format!("N {agents}, R {resources}, count {actions}");
                let text = text_of(&expected);
                let block = expect(&text, 0, &name);
                assert!(block == expected, "{name}");
                assert_eq!(written_back(&block, &text), text, "{name}");
            }
        }
    }
}

/// A count that the costs after it do not fit.
#[test]
fn number_of_costs() {
    for (line, others) in [
        (
            "acts,1,0,2,0,3",
            [
                "acts,1,0,1,0,3",
                "acts,1,0,3,0,3",
                "acts,1,0,2,0",
                "acts,1,0,2,0,3,0",
            ],
        ),
        (
            "acts,0,1,2,0,0",
            [
                "acts,0,1,2",
                "acts,0,1,2,",
                "acts,0,1,2,0,",
                "acts,0,1,2,0,0,",
            ],
        ),
    ] {
        for other in others {
            expect(&with_line(&catch(), line, other), 7, other);
        }
    }
}

#[test]
fn idle_costs_nothing() {
    for (marked, place) in [
        ("acts,0,0,2,[0],0,15,3", cost(0, 0, 0, 0)),
        ("acts,0,0,2,0,[0],15,3", cost(0, 0, 0, 1)),
        ("acts,0,1,1,[0],0", cost(0, 1, 0, 0)),
        ("acts,1,2,1,0,[0]", cost(1, 2, 0, 1)),
    ] {
        Field::of(WIDE, marked).holds(place, 0..=0, 3);
    }
    Field::of(&catch(), "acts,1,0,2,[0],3").holds(cost(1, 0, 0, 0), 0..=0, 3);
    Field::of(&catch(), "acts,2,1,1,[0]").holds(cost(2, 1, 0, 0), 0..=0, 3);
}

#[test]
fn cost_up_to_15() {
    for (marked, place) in [
        ("acts,0,0,2,0,0,[15],3", cost(0, 0, 1, 0)),
        ("acts,0,0,2,0,0,15,[3]", cost(0, 0, 1, 1)),
        ("acts,0,2,2,0,0,[1],0", cost(0, 2, 1, 0)),
        ("acts,0,2,2,0,0,1,[0]", cost(0, 2, 1, 1)),
    ] {
        Field::of(WIDE, marked).holds(place, 0..=15, 3);
    }
    Field::of(&catch(), "acts,1,0,2,0,[3]").holds(cost(1, 0, 1, 0), 0..=15, 3);
}

/// The state and the actions of a `go` line are fixed, whatever the counts.
#[test]
fn go_indices() {
    for marked in [
        "go,[0],0,0,0,0",
        "go,0,[0],0,0,0",
        "go,0,0,[0],0,0",
        "go,0,0,0,[0],0",
        "go,[0],1,0,1,0",
        "go,0,[1],0,1,0",
        "go,0,1,[0],1,0",
        "go,0,1,0,[1],0",
        "go,[1],0,0,0,1",
        "go,1,[0],0,0,1",
    ] {
        Field::of(WIDE, marked).is_fixed();
    }
}

/// Joint actions rise with agent 0 fastest, and none is left out or repeated.
#[test]
fn go_lines_in_rising_number() {
    let lines = ["go,0,0,0,0", "go,0,1,0,1", "go,0,0,1,0", "go,0,1,1,0"];
    for i in 0..lines.len() {
        for j in 0..i {
            let text = with_line(&catch(), lines[i], "@");
            let text = with_line(&text, lines[j], lines[i]);
            let text = text.replace('@', lines[j]);
            expect(&text, 7, &format!("go lines {j} and {i} swapped"));
        }
        let line = format!("{}\n", lines[i]);
        expect(&catch().replace(&line, ""), 7, &format!("no {line}"));
        let twice = catch().replace(&line, &line.repeat(2));
        expect(&twice, 7, &format!("twice {line}"));
    }
}

#[test]
fn number_of_actions_in_a_go_line() {
    for other in [
        "go,2,0,2",
        "go,2,0,0,0,2",
        "go,2,0,0",
        "go,2,2",
        "go,2,0,0,2,",
        "go,2,0,0,",
    ] {
        expect(&with_line(&catch(), "go,2,0,0,2", other), 7, other);
    }
}

#[test]
fn next_state_exists() {
    Field::of(WIDE, "go,0,0,0,0,[0]").holds(next(0, 0), 0..=1, 4);
    Field::of(WIDE, "go,0,0,0,1,[1]").holds(next(0, 16), 0..=1, 4);
    Field::of(WIDE, "go,0,1,0,1,[0]").holds(next(0, 17), 0..=1, 4);
    Field::of(&catch(), "go,0,1,1,[0]").holds(next(0, 5), 0..=2, 4);
    next_states_are_states(Edition::One, "0,");
}
