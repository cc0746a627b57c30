//! Listings, tables, moves, replies and sheets of random jobs, beside the checker's.

use super::{desk, Says, LOST, OUTSIDE};
use rbatl_tests::layout::*;
use rbatl_tests::listing::{listing, try_damaged_texts, try_job_files, try_random_jobs};
use rbatl_tests::model::{At, Model, ROOM_BYTES};
use rbatl_tests::random::{any_text, cases, Rng};
use rbatl_tests::{games, text};

const SEED: u64 = 57;

fn agree_on_listing(text: &[u8], what: &str) -> bool {
    let ran = desk("list", text);
    let expected = String::from_utf8(listing(text)).expect("plain text");
    if let Some(number) = expected.strip_prefix("refused,") {
        let number = number.trim_end().parse().expect("a number");
        assert!(ran.refused(number), "{what}: {ran:?}");
    } else {
        assert_eq!(ran.answer(), expected, "{what}");
    }
    !expected.starts_with("refused,")
}

#[test]
fn listings_of_the_job_files() {
    try_job_files(agree_on_listing);
}

#[test]
fn listings_of_random_jobs() {
    try_random_jobs(SEED, agree_on_listing);
}

#[test]
fn listings_of_damaged_texts() {
    try_damaged_texts(SEED + 1, agree_on_listing);
}

/// The agents' actions in words.
fn actions_of(joint: u8, agents: u8) -> String {
    let word = |agent: usize| match actions(joint.into())[agent] {
        0 => format!("agent {agent} idle"),
        action => format!("agent {agent} action {action}"),
    };
    let named = (0..MAX_AGENTS).filter(|agent| agents >> agent & 1 == 1);
    match agents {
        0 => "nobody".to_string(),
        _ => named.map(word).collect::<Vec<String>>().join(", "),
    }
}

/// The stocks of the job's resources, with something between them.
fn stocks_of(block: &[u8], at: At, between: &str) -> String {
    let stocks = at.stock[..Sizes::of(block).resources].iter();
    stocks.map(u8::to_string).collect::<Vec<_>>().join(between)
}

/// The lines of a table after its head.
fn entries(block: &[u8], model: &Model, i: u8) -> Vec<String> {
    let table = &model.row(i).expect("a strategic row").table;
    let coalition = block[row(i.into(), COALITION)];
    let line = |at: At| {
        let position = model.row(i).expect("a strategic row").position(at);
        let rank = match table.ranks[position] {
            u16::MAX => "never".to_string(),
            rank => rank.to_string(),
        };
        let played = match table.moves[position] {
            u8::MAX => "no move".to_string(),
            number => format!("move {number}: {}", actions_of(number, coalition)),
        };
        let stock = stocks_of(block, at, ", ");
        format!("state {}, stock {stock}: rank {rank}, {played}", at.state)
    };
    model.positions(i).into_iter().map(line).collect()
}

#[test]
fn tables_of_random_jobs() {
    let mut compared = 0;
    for case in 0..cases(100) {
        let mut rng = Rng::for_case(SEED + 2, case);
        let mut block = games::mixed(&mut rng);
        let text = any_text(&mut rng, &mut block);
        let model = Model::of(&block);
        for row in model.rows() {
            let printed = desk(&format!("table {row}"), &text).answer();
            let found: Vec<&str> = printed.lines().skip(2).collect();
            assert_eq!(
                found,
                entries(&block, &model, row),
                "case {case}, row {row}"
            );
            compared += 1;
        }
    }
    assert!(compared > 100, "{compared}");
}

/// A position of some row and a move, mostly one that it pays for; or something
/// beside them.
fn any_question(rng: &mut Rng, model: &Model) -> (At, u8) {
    let rows = model.rows();
    if rows.is_empty() {
        let (row, state, stock) = (rng.byte(), 0, [0, 0]);
        return (At { row, state, stock }, 0);
    }
    let number = rng.pick(&rows);
    let row = model.row(number).expect("a strategic row");
    let mut at = rng.pick(&model.positions(number));
    let mut mv = rng.pick(&row.table.affordable(row.position(at)));
    match rng.below(12) {
        0 => at.row = rng.byte(),
        1 => at.state += 1,
        2 => at.stock[0] += 1,
        3 => mv = rng.byte(),
        _ => {}
    }
    (at, mv)
}

/// The desk says the move or the reply of these agents, or refuses with the
/// number.
fn agree_at(line: &str, text: &[u8], answer: i32, agents: u8) {
    let ran = desk(line, text);
    let Ok(number) = u8::try_from(answer) else {
        assert!(ran.refused(-answer as u8), "{line}: {ran:?}");
        return;
    };
    let noun = line.split(' ').next().expect("a command");
    let due = format!("{noun} {number}: {}\n", actions_of(number, agents));
    assert_eq!(ran.answer(), due, "{line}");
}

/// Whether the move and the reply at a position were answered.
fn agree_on_both(block: &[u8], model: &Model, at: At, mv: u8) -> [bool; 2] {
    let (text, sizes) = (text::write(block), Sizes::of(block));
    let mut room = vec![0; ROOM_BYTES];
    let stocks = stocks_of(block, at, " ");
    let place = format!("{} {} {stocks}", at.row, at.state);
    let coalition = match usize::from(at.row) < sizes.rows {
        true => block[row(at.row.into(), COALITION)],
        false => 0,
    };
    let answer = model.coalition_move(at, &mut room);
    agree_at(&format!("move {place}"), &text, answer, coalition);
    let opponents = (1 << sizes.agents) - 1 - coalition;
    let reply = model.reply(at, mv, &mut room);
    agree_at(&format!("reply {place} {mv}"), &text, reply, opponents);
    [answer >= 0, reply >= 0]
}

#[test]
fn moves_and_replies_of_random_jobs() {
    let mut answered = [0, 0];
    for case in 0..cases(150) {
        let mut rng = Rng::for_case(SEED + 3, case);
        let block = games::few(&mut rng);
        let model = Model::of(&block);
        for _ in 0..3 {
            let (at, mv) = any_question(&mut rng, &model);
            let found = agree_on_both(&block, &model, at, mv);
            for (count, found) in answered.iter_mut().zip(found) {
                *count += u32::from(found);
            }
        }
    }
    assert!(answered.iter().all(|&count| count > 50), "{answered:?}");
}

/// The line of a position in a sheet.
fn sheet_line(block: &[u8], at: At, answer: i32) -> String {
    let coalition = block[row(at.row.into(), COALITION)];
    let words = match answer {
        -10 => LOST.to_string(),
        -9 => OUTSIDE.to_string(),
        _ => format!("move {answer}: {}", actions_of(answer as u8, coalition)),
    };
    let stock = stocks_of(block, at, ", ");
    format!("state {}, stock {stock}: {words}\n", at.state)
}

/// Positions of a row, and now and then one beside them.
#[test]
fn sheets_of_random_jobs() {
    let (mut room, mut seen) = (vec![0; ROOM_BYTES], [0; 3]);
    for case in 0..cases(150) {
        let mut rng = Rng::for_case(SEED + 4, case);
        let block = games::few(&mut rng);
        let model = Model::of(&block);
        for row in model.rows() {
            let (mut line, mut due) = (format!("sheet {row}"), String::new());
            for _ in 0..rng.within(1..=64) {
                let mut at = rng.pick(&model.positions(row));
                at.state += u8::from(rng.one_in(12)) * 3;
                at.stock[0] += u8::from(rng.one_in(12));
                let answer = model.coalition_move(at, &mut room);
                seen[usize::try_from(-8 - answer).unwrap_or(0)] += 1;
                line += &format!(" {}:{}", at.state, stocks_of(&block, at, ":"));
                due += &sheet_line(&block, at, answer);
            }
            assert_eq!(
                desk(&line, &text::write(&block)).answer(),
                due,
                "case {case}"
            );
        }
    }
    assert!(seen.iter().all(|&count| count > 500), "{seen:?}");
}
