//! The reader of a job's text.

use super::{end_of, Edition, COMMA, EDITIONS, KIND_WORDS, LINE_END, MINUS, ROW_WORDS, TEXT_BYTES};
use crate::block::{bad_charge, bad_coalition, bad_cost, bad_count, bad_mask, bad_operand};
use crate::layout::*;
use crate::refusal;

/// A refusal number is the error.
type Outcome<T> = Result<T, u8>;

/// The block of a text, or the refusal number.
pub fn read(text: &[u8]) -> Outcome<Vec<u8>> {
    refuse_if(text.len() > TEXT_BYTES, refusal::LENGTH)?;
    read_job(&mut Reader::of(text))
}

/// Where reading stops: at the field that is refused, or at the text's end.
pub fn stop(text: &[u8]) -> usize {
    let mut reader = Reader::of(text);
    match read_job(&mut reader) {
        Ok(_) => text.len(),
        Err(_) => text.len() - reader.field.len(),
    }
}

fn read_job(reader: &mut Reader) -> Outcome<Vec<u8>> {
    let mut block = vec![0; BLOCK_BYTES];
    let edition = reader.edition()?;
    read_sizes(reader, &mut block, edition)?;
    if edition == Edition::Two {
        read_kinds(reader, &mut block)?;
    }
    let sizes = Sizes::of(&block);
    for state in 0..sizes.states {
        read_state(reader, &mut block, state, edition)?;
        match edition {
            Edition::One => read_go_lines(reader, &mut block, state)?,
            Edition::Two => read_go_line(reader, &mut block, state)?,
        }
    }
    for i in 0..sizes.rows {
        read_row(reader, &mut block, i)?;
    }
    reader.begin();
    refuse_if(!reader.rest.is_empty(), refusal::FORM)?;
    Ok(block)
}

fn refuse_if(bad: bool, number: u8) -> Outcome<()> {
    match bad {
        true => Err(number),
        false => Ok(()),
    }
}

/// What is left of the text, and the text from the field on that is being read.
/// Each field is read together with the comma or line end after it, since both
/// belong to its form.
struct Reader<'a> {
    rest: &'a [u8],
    field: &'a [u8],
}

impl<'a> Reader<'a> {
    fn of(text: &'a [u8]) -> Reader<'a> {
        Reader {
            rest: text,
            field: text,
        }
    }

    fn begin(&mut self) {
        self.field = self.rest;
    }

    fn literal(&mut self, bytes: &[u8]) -> Outcome<()> {
        self.rest = self.rest.strip_prefix(bytes).ok_or(refusal::FORM)?;
        Ok(())
    }

    /// A word and the byte after it.
    fn word(&mut self, word: &str, end: u8) -> Outcome<()> {
        self.begin();
        let rest = self.rest.strip_prefix(word.as_bytes());
        let rest = rest.and_then(|rest| rest.strip_prefix(&[end]));
        self.rest = rest.ok_or(refusal::FORM)?;
        Ok(())
    }

    /// The place of the word among these.
    fn word_of(&mut self, words: &[&str], end: u8) -> Outcome<u8> {
        let place = words.iter().position(|word| self.word(word, end).is_ok());
        place.map(|place| place as u8).ok_or(refusal::FORM)
    }

    fn edition(&mut self) -> Outcome<Edition> {
        let opens = |edition: &Edition| self.word(edition.word(), COMMA).is_ok();
        EDITIONS.into_iter().find(opens).ok_or(refusal::FORM)
    }

    /// A field that is a number.
    fn number(&mut self, end: u8) -> Outcome<u8> {
        self.begin();
        self.digits(end)
    }

    /// 0 to 255 without leading zeros, and the byte after it.
    fn digits(&mut self, end: u8) -> Outcome<u8> {
        let digits = self.rest.iter().take_while(|b| b.is_ascii_digit()).count();
        let (field, rest) = self.rest.split_at(digits);
        refuse_if(digits > 1 && field[0] == b'0', refusal::FORM)?;
        let written = std::str::from_utf8(field).map_err(|_| refusal::FORM)?;
        let number = written.parse().map_err(|_| refusal::FORM)?;
        self.rest = rest;
        self.literal(&[end])?;
        Ok(number)
    }

    /// A cost: a number, or in edition 2 a charge, which is one with a minus before it
    /// and never 0.
    fn cost(&mut self, edition: Edition, end: u8) -> Outcome<i32> {
        self.begin();
        let charge = edition == Edition::Two && self.literal(&[MINUS]).is_ok();
        let number = i32::from(self.digits(end)?);
        refuse_if(charge && number == 0, refusal::FORM)?;
        Ok(if charge { -number } else { number })
    }

    /// A number that the form fixes: the state, agent or action of the line.
    fn index(&mut self, expected: usize, end: u8) -> Outcome<()> {
        let number = self.number(end)?;
        refuse_if(usize::from(number) != expected, refusal::FORM)
    }

    /// A number, `inf` for unlimited, or nothing for 0 (document 02, R-2), and its
    /// comma.
    fn bound(&mut self) -> Outcome<u8> {
        if self.literal(b"inf,").is_ok() {
            return Ok(UNLIMITED);
        }
        if self.literal(b",").is_ok() {
            return Ok(0);
        }
        let bound = self.number(COMMA)?;
        refuse_if(bound > MAX_BOUND, refusal::ROW)?;
        Ok(bound)
    }
}

/// In edition 2 the kinds follow in the same line.
fn read_sizes(reader: &mut Reader, block: &mut [u8], edition: Edition) -> Outcome<()> {
    let places = [
        (AGENTS, MAX_AGENTS),
        (RESOURCES, MAX_RESOURCES),
        (STATES, MAX_STATES),
        (PROPOSITIONS, MAX_PROPOSITIONS),
        (ROWS, MAX_ROWS),
    ];
    for (place, max) in places {
        let last = place == ROWS && edition == Edition::One;
        block[place] = reader.number(end_of(last))?;
        let in_range = (1..=max).contains(&block[place].into());
        refuse_if(!in_range, refusal::SIZES)?;
    }
    Ok(())
}

fn read_kinds(reader: &mut Reader, block: &mut [u8]) -> Outcome<()> {
    let resources = Sizes::of(block).resources;
    for resource in 0..resources {
        let end = end_of(resource + 1 == resources);
        block[resource_kind(resource)] = reader.word_of(&KIND_WORDS, end)?;
    }
    Ok(())
}

/// The line of a state, and those of its agents.
fn read_state(
    reader: &mut Reader,
    block: &mut [u8],
    state: usize,
    edition: Edition,
) -> Outcome<()> {
    let sizes = Sizes::of(block);
    reader.word("state", COMMA)?;
    reader.index(state, COMMA)?;
    let propositions = reader.number(LINE_END)?;
    refuse_if(bad_mask(propositions, sizes.propositions), refusal::STATE)?;
    block[mask(state)] = propositions;
    for agent in 0..sizes.agents {
        read_actions(reader, block, state, agent, edition)?;
    }
    Ok(())
}

fn read_actions(
    reader: &mut Reader,
    block: &mut [u8],
    state: usize,
    agent: usize,
    edition: Edition,
) -> Outcome<()> {
    let resources = Sizes::of(block).resources;
    reader.word("acts", COMMA)?;
    reader.index(state, COMMA)?;
    reader.index(agent, COMMA)?;
    let actions = reader.number(COMMA)?;
    refuse_if(bad_count(actions), refusal::STATE)?;
    block[count(state, agent)] = actions;
    let last = usize::from(actions) * resources - 1;
    for field in 0..=last {
        let (action, resource) = (field / resources, field % resources);
        let spent = reader.cost(edition, end_of(field == last))?;
        let kind = block[resource_kind(resource)];
        refuse_if(bad_cost(action, spent), refusal::STATE)?;
        refuse_if(bad_charge(kind, spent), refusal::CHARGE)?;
        block[cost(state, agent, action, resource)] = cost_byte(spent);
    }
    Ok(())
}

/// Edition 1: a line for each joint action.
fn read_go_lines(reader: &mut Reader, block: &mut [u8], state: usize) -> Outcome<()> {
    let agents = Sizes::of(block).agents;
    let joints: Vec<usize> = joint_actions(block, state).collect();
    for joint in joints {
        reader.word("go", COMMA)?;
        reader.index(state, COMMA)?;
        for action in &actions(joint)[..agents] {
            reader.index(*action, COMMA)?;
        }
        read_next(reader, block, next(state, joint), LINE_END)?;
    }
    Ok(())
}

/// Edition 2: one line for all of them.
fn read_go_line(reader: &mut Reader, block: &mut [u8], state: usize) -> Outcome<()> {
    let joints: Vec<usize> = joint_actions(block, state).collect();
    reader.word("go", COMMA)?;
    reader.index(state, COMMA)?;
    for (place, joint) in joints.iter().enumerate() {
        let end = end_of(place + 1 == joints.len());
        read_next(reader, block, next(state, *joint), end)?;
    }
    Ok(())
}

fn read_next(reader: &mut Reader, block: &mut [u8], place: usize, end: u8) -> Outcome<()> {
    let target = reader.number(end)?;
    let absent = usize::from(target) >= Sizes::of(block).states;
    refuse_if(absent, refusal::NEXT)?;
    block[place] = target;
    Ok(())
}

fn read_row(reader: &mut Reader, block: &mut [u8], i: usize) -> Outcome<()> {
    let sizes = Sizes::of(block);
    let kind = reader.word_of(&ROW_WORDS, COMMA)?;
    block[row(i, KIND)] = kind;
    if kind == PROP {
        let proposition = reader.number(LINE_END)?;
        let absent = usize::from(proposition) >= sizes.propositions;
        refuse_if(absent, refusal::ROW)?;
        block[row(i, LEFT)] = proposition;
        return Ok(());
    }
    if is_strategic(kind) {
        read_coalition(reader, block, i)?;
    }
    if uses_right(kind) {
        block[row(i, LEFT)] = read_operand(reader, i, COMMA)?;
        block[row(i, RIGHT)] = read_operand(reader, i, LINE_END)?;
    } else {
        block[row(i, LEFT)] = read_operand(reader, i, LINE_END)?;
    }
    Ok(())
}

fn read_coalition(reader: &mut Reader, block: &mut [u8], i: usize) -> Outcome<()> {
    let sizes = Sizes::of(block);
    let coalition = reader.number(COMMA)?;
    refuse_if(bad_coalition(coalition, sizes.agents), refusal::ROW)?;
    block[row(i, COALITION)] = coalition;
    for resource in 0..sizes.resources {
        block[row(i, BOUND + resource)] = reader.bound()?;
    }
    Ok(())
}

fn read_operand(reader: &mut Reader, i: usize, end: u8) -> Outcome<u8> {
    let operand = reader.number(end)?;
    refuse_if(bad_operand(operand, i), refusal::ROW)?;
    Ok(operand)
}
