//! Drawings: Catch's to the byte; of random jobs, that each state is a node,
//! filled if the row is true there, and that the patterns of an edge are the
//! joint actions that lead along it.

use super::{desk, Says};
use rbatl_tests::checker::search;
use rbatl_tests::checker::structure::{contains, Set, Structure};
use rbatl_tests::checker::NO_MOVE;
use rbatl_tests::layout::*;
use rbatl_tests::random::{any_block, cases, Rng};
use rbatl_tests::{games, jobs, text};
use std::collections::{BTreeMap, BTreeSet};

/// After the head, which is style.
const CATCH_4: &str = r##"  s0 [label="state 0\nmove (1,0), cost 2\nrank 2", fillcolor="#cfe8cf"];
  s1 [label="state 1\nmove (1,0), cost 3\nrank 1", fillcolor="#cfe8cf"];
  s2 [label="state 2\np0\nrank 0", fillcolor="#cfe8cf"];
  s0 -> s0 [label="(*,1)\n(0,*)"];
  s0 -> s1 [label="(1,0)", penwidth=2.5];
  s1 -> s1 [label="(0,*)"];
  s1 -> s2 [label="(1,*)", penwidth=2.5];
  s2 -> s2 [label="*"];
}
"##;

#[test]
fn catch_has_its_drawing() {
    let printed = desk("dot 4", &jobs::text("catch.job")).answer();
    assert!(printed.starts_with("digraph row_4 {\n"), "{printed}");
    assert!(
        printed.contains(
            "label=\"row 4: coalition 0, 1 within 5: row 2 until row 0\\nresources: sum\\n"
        ),
        "{printed}"
    );
    assert!(printed.ends_with(CATCH_4), "{printed}");
}

/// Rows that are not strategic have no moves.
#[test]
fn a_proposition_has_its_states_alone() {
    let printed = desk("dot 0", &jobs::text("catch.job")).answer();
    assert!(printed.contains("label=\"row 0: proposition 0\\nresources: sum\\n"));
    assert!(printed.contains("  s0 [label=\"state 0\"];\n"));
    assert!(printed.contains("  s2 [label=\"state 2\\np0\", fillcolor="));
    assert!(!printed.contains("penwidth") && !printed.contains("move"));
}

#[test]
fn sensor_has_costs_of_two_resources() {
    let printed = desk("dot 3", &jobs::text("sensor.job")).answer();
    let first = "  s0 [label=\"state 0\\nmove (1,0), cost 2 and 0\\nrank 3\", fillcolor=";
    assert!(printed.contains(first), "{printed}");
}

/// The title tells the kinds, and a move's cost goes by them.
#[test]
fn minutes_have_their_kinds() {
    let (first, second) = (
        "row 3: coalition 0, 1 within 5, 5: row 2 until row 0",
        "filled: ",
    );
    let max = desk("dot 3", &jobs::text("minutes.job")).answer();
    let title = format!("label=\"{first}\\nresources: sum, max\\n{second}");
    assert!(max.contains(&title), "{max}");
    assert!(max.contains("move (1,1,*), cost 4 and 3\\n"), "{max}");
    let sum = desk("dot 4", &jobs::text("minutes-sum.job")).answer();
    assert!(sum.contains("\\nresources: sum, sum\\n"), "{sum}");
    assert!(sum.contains("move (1,1,*), cost 4 and 6\\n"), "{sum}");
    let plain = desk("dot 0", &jobs::text("minutes.job")).answer();
    assert!(plain.contains("label=\"row 0: proposition 0\\nresources: sum, max\\n"));
}

/// An edge as it is drawn.
struct Edge {
    label: String,
    bold: bool,
}

/// The nodes, each with its attributes, and the edges of a drawing. What is
/// neither, after the head, is refused here.
struct Drawing {
    nodes: BTreeMap<usize, String>,
    edges: BTreeMap<(usize, usize), Edge>,
}

fn state(word: &str) -> usize {
    word.strip_prefix('s')
        .and_then(|number| number.parse().ok())
        .expect("a state")
}

impl Drawing {
    fn of(printed: &str) -> Drawing {
        let (mut nodes, mut edges) = (BTreeMap::new(), BTreeMap::new());
        let body = printed.strip_suffix("}\n").expect("a closing brace");
        for line in body.lines().filter(|line| line.starts_with("  s")) {
            assert_eq!(line.matches('"').count() % 2, 0, "{line}");
            let (ends, attributes) = line.trim().split_once(" [label=\"").expect("a label");
            let attributes = attributes.strip_suffix("];").expect("an end");
            let (label, rest) = attributes.split_once('"').expect("a closing quote");
            let twice = match ends.split_once(" -> ") {
                Some((from, to)) => {
                    let (label, bold) = (label.to_string(), rest == ", penwidth=2.5");
                    assert!(bold || rest.is_empty(), "{line}");
                    let edge = Edge { label, bold };
                    edges.insert((state(from), state(to)), edge).is_some()
                }
                None => nodes.insert(state(ends), attributes.to_string()).is_some(),
            };
            assert!(!twice, "{line} is there twice");
        }
        Drawing { nodes, edges }
    }
}

/// Whether a pattern, `*` or one action for each agent, has the joint action.
fn matches(pattern: &str, joint: usize, agents: usize) -> bool {
    if pattern == "*" {
        return true;
    }
    let inner = pattern.strip_prefix('(').and_then(|p| p.strip_suffix(')'));
    let fields: Vec<&str> = inner.expect("a pattern").split(',').collect();
    assert_eq!(fields.len(), agents, "{pattern}");
    let fits = |(agent, &field): (usize, &&str)| {
        field == "*" || field == actions(joint)[agent].to_string()
    };
    fields.iter().enumerate().all(fits)
}

/// A job and a row of it, and what the checker says of it.
struct Drawn<'a> {
    block: &'a [u8],
    row: usize,
    set: Set,
    /// The moves at full stock, and none where the row is met already.
    moves: Vec<Option<u8>>,
}

impl Drawn<'_> {
    fn of(block: &[u8], row: usize) -> Drawn<'_> {
        let structure = Structure::of(block);
        let sets = search::label(&structure);
        let table = search::table(&structure, row, &sets);
        let move_in = |state| {
            let table = table.as_ref()?;
            let position = table.full_stock(state);
            let goes_on = table.ranks[position] != 0 && table.moves[position] != NO_MOVE;
            goes_on.then(|| table.moves[position])
        };
        Drawn {
            block,
            row,
            set: sets[row],
            moves: (0..structure.states).map(move_in).collect(),
        }
    }

    /// The patterns hold of the joint actions that lead there and of no other;
    /// of some of them, if there are more patterns than are shown.
    fn has_patterns(&self, label: &str, state: usize, target: usize) -> bool {
        let (shown, whole) = match label.split_once("\\n+ ") {
            Some((shown, _)) => (shown, false),
            None => (label, true),
        };
        let agents = Sizes::of(self.block).agents;
        joint_actions(self.block, state).all(|joint| {
            let mut patterns = shown.split("\\n");
            let matched = patterns.any(|pattern| matches(pattern, joint, agents));
            let leads = usize::from(self.block[next(state, joint)]) == target;
            matched == leads || (leads && !whole)
        })
    }

    /// What a move takes of each resource, by its kind, below 0 where it charges, as it
    /// is drawn.
    fn cost(&self, state: usize, number: u8) -> String {
        let agents = 0..Sizes::of(self.block).agents;
        let costs = (0..Sizes::of(self.block).resources).map(|resource| {
            let action = |agent| actions(number.into())[agent];
            let byte = |agent| self.block[cost(state, agent, action(agent), resource)];
            let costs = agents.clone().map(|agent| cost_of(byte(agent)));
            match self.block[resource_kind(resource)] {
                MAX => costs.max().unwrap_or(0),
                _ => costs.sum::<i32>(),
            }
        });
        let costs: Vec<String> = costs.map(|cost| cost.to_string()).collect();
        costs.join(" and ")
    }

    /// Whether the coalition's move can lead from the state to the target.
    fn is_bold(&self, state: usize, target: usize) -> bool {
        let coalition = self.block[row(self.row, COALITION)];
        let part = |joint: usize| -> usize {
            let agents = (0..MAX_AGENTS).filter(|agent| coalition >> agent & 1 == 1);
            agents.map(|a| actions(joint)[a] << (2 * a)).sum()
        };
        self.moves[state].is_some_and(|number| {
            let mut joints = joint_actions(self.block, state);
            let leads = |joint| usize::from(self.block[next(state, joint)]) == target;
            joints.any(|joint| part(joint) == usize::from(number) && leads(joint))
        })
    }

    fn check(&self, what: &str) {
        let line = format!("dot {}", self.row);
        let drawing = Drawing::of(&desk(&line, &text::write(self.block)).answer());
        let states = Sizes::of(self.block).states;
        assert_eq!(drawing.nodes.len(), states, "{what}");
        for (&state, node) in &drawing.nodes {
            let filled = node.contains("fillcolor");
            assert_eq!(filled, contains(self.set, state), "{what}: {node}");
            let moves = node.contains("\\nmove ");
            assert_eq!(moves, self.moves[state].is_some(), "{what}: {node}");
            let cost = self.moves[state].map(|number| self.cost(state, number));
            let told = |cost: String| {
                let (_, rest) = node.split_once(", cost ").expect("a cost");
                rest.starts_with(&format!("{cost}\\n")) || rest.starts_with(&format!("{cost}\""))
            };
            let told = cost.is_none_or(told);
            assert!(told, "{what}: {node}");
            let leads = |joint| usize::from(self.block[next(state, joint)]);
            let targets = joint_actions(self.block, state).map(leads);
            let targets: BTreeSet<usize> = targets.collect();
            let drawn = drawing.edges.keys().filter(|(from, _)| *from == state);
            assert!(drawn.map(|(_, to)| to).eq(&targets), "{what}: {state}");
        }
        for (&(state, target), edge) in &drawing.edges {
            let what = format!("{what}: {state} to {target} by {}", edge.label);
            assert!(self.has_patterns(&edge.label, state, target), "{what}");
            assert_eq!(edge.bold, self.is_bold(state, target), "{what}");
        }
    }
}

#[test]
fn drawings_of_random_jobs() {
    for case in 0..cases(120) {
        let mut rng = Rng::for_case(91, case);
        let block = match rng.below(6) {
            0 => any_block(&mut rng),
            1..=2 => games::teamwork(&mut rng),
            _ => games::small(&mut rng),
        };
        let row = rng.below(Sizes::of(&block).rows);
        Drawn::of(&block, row).check(&format!("case {case}, row {row}"));
    }
}
