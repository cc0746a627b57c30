//! The writers of a job's text.

use super::{Edition, KIND_WORDS, ROW_WORDS};
use crate::layout::*;

/// The text of a block that the check lets pass, as the library writes it.
pub fn write(block: &[u8]) -> Vec<u8> {
    write_as(Edition::Two, block)
}

/// The text of an edition. Edition 1 has no word for a kind and no minus, and no text
/// of a block with a resource of kind max or a charge.
pub fn write_as(edition: Edition, block: &[u8]) -> Vec<u8> {
    let mut text = write_structure(edition, block);
    for i in 0..Sizes::of(block).rows {
        write_row(&mut text, block, i);
    }
    text
}

/// Whether the block has a text of edition 1.
pub fn has_first_edition(block: &[u8]) -> bool {
    let kinds = &block[resource_kind(0)..BLOCK_BYTES];
    kinds.iter().all(|&kind| kind == SUM) && !has_charges(block)
}

/// The text before the rows.
pub fn write_structure(edition: Edition, block: &[u8]) -> Vec<u8> {
    let mut text = Vec::new();
    let sizes = Sizes::of(block);
    let kinds = &block[resource_kind(0)..resource_kind(sizes.resources)];
    let mut fields = numbers(&block[AGENTS..=ROWS]);
    match edition {
        Edition::One => assert!(has_first_edition(block), "no such text"),
        Edition::Two => {
            let words = kinds.iter().map(|&kind| KIND_WORDS[usize::from(kind)]);
            fields.extend(words.map(String::from));
        }
    }
    line(&mut text, edition.word(), &fields);
    for state in 0..sizes.states {
        write_state(&mut text, block, state);
        match edition {
            Edition::One => write_go_lines(&mut text, block, state),
            Edition::Two => write_go_line(&mut text, block, state),
        }
    }
    text
}

fn line(text: &mut Vec<u8>, word: &str, fields: &[String]) {
    text.extend(format!("{word},{}\n", fields.join(",")).into_bytes());
}

fn numbers(fields: &[u8]) -> Vec<String> {
    fields.iter().map(u8::to_string).collect()
}

fn write_state(text: &mut Vec<u8>, block: &[u8], state: usize) {
    let sizes = Sizes::of(block);
    line(text, "state", &numbers(&[state as u8, block[mask(state)]]));
    for agent in 0..sizes.agents {
        let actions = block[count(state, agent)];
        let mut fields = numbers(&[state as u8, agent as u8, actions]);
        for action in 0..actions.into() {
            let first = cost(state, agent, action, 0);
            let costs = block[first..first + sizes.resources].iter();
            fields.extend(costs.map(|&byte| cost_of(byte).to_string()));
        }
        line(text, "acts", &fields);
    }
}

fn write_go_lines(text: &mut Vec<u8>, block: &[u8], state: usize) {
    let agents = Sizes::of(block).agents;
    for joint in joint_actions(block, state) {
        let mut fields = vec![state as u8];
        fields.extend(actions(joint)[..agents].iter().map(|&a| a as u8));
        fields.push(block[next(state, joint)]);
        line(text, "go", &numbers(&fields));
    }
}

fn write_go_line(text: &mut Vec<u8>, block: &[u8], state: usize) {
    let mut fields = vec![state as u8];
    fields.extend(joint_actions(block, state).map(|joint| block[next(state, joint)]));
    line(text, "go", &numbers(&fields));
}

fn write_row(text: &mut Vec<u8>, block: &[u8], i: usize) {
    let field = |field| block[row(i, field)];
    let kind = field(KIND);
    let mut fields = Vec::new();
    if is_strategic(kind) {
        fields.push(field(COALITION).to_string());
        for resource in 0..Sizes::of(block).resources {
            fields.push(match field(BOUND + resource) {
                UNLIMITED => "inf".to_string(),
                bound => bound.to_string(),
            });
        }
    }
    fields.push(field(LEFT).to_string());
    if uses_right(kind) {
        fields.push(field(RIGHT).to_string());
    }
    line(text, ROW_WORDS[usize::from(kind)], &fields);
}
