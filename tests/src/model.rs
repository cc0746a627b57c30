//! The calls that solve rows, from document 01 and by the checker's search on
//! positions: those that label rows, fill tables and list states, those that give
//! a move or a reply at one position, the worksheet, the smallest allowances, and the
//! rehearsal.

mod allowances;
mod rehearsal;

use crate::checker::allowances::Trials;
use crate::checker::search::{self, Table};
use crate::checker::structure::{contains, Set, Structure};
use crate::checker::NO_MOVE;
use crate::layout::*;
use crate::play::Game;
use crate::{block, refusal};
use std::cell::OnceCell;

pub const SETS_BYTES: usize = 4 * MAX_ROWS;
pub const ROOM_BYTES: usize = 12_288;
pub const RANKS_BYTES: usize = 12_288;
pub const MOVES_BYTES: usize = 6_144;
pub const STATES_BYTES: usize = MAX_STATES;
/// A position of a worksheet: state, stock, stock.
pub const POSITION_BYTES: usize = 1 + MAX_RESOURCES;
pub const SHEET_POSITIONS: usize = 64;
pub const SHEET_BYTES: usize = POSITION_BYTES * SHEET_POSITIONS;
/// What a word of a worksheet has more than a refusal's number.
pub const WORD_REFUSED: u16 = 256;
/// At most 16 smallest allowances, a bound for each resource.
pub const ALLOWANCES_BYTES: usize = 16 * MAX_RESOURCES;
/// The longest script of a rehearsal, and its report: finished, moves, position.
pub const SCRIPT_BYTES: usize = 255;
pub const REPORT_BYTES: usize = 4;

/// What a call at one position is asked for: a row, a state and a stock for each
/// resource.
#[derive(Clone, Copy, Debug, PartialEq, Eq, PartialOrd, Ord)]
pub struct At {
    pub row: u8,
    pub state: u8,
    pub stock: [u8; MAX_RESOURCES],
}

/// What the calls make of a block; it is checked and labelled once for all.
pub struct Model {
    job: Result<Job, u8>,
}

struct Job {
    block: Vec<u8>,
    structure: Structure,
    sets: Vec<Set>,
    /// Each worked out when it is first asked for; none if it is not strategic.
    rows: Vec<OnceCell<Option<Row>>>,
}

/// A strategic row.
pub struct Row {
    pub table: Table,
    pub game: Game,
    /// The largest stocks: the bound, or 0 where unlimited or absent.
    pub largest: [u8; MAX_RESOURCES],
    /// Each allowance in its place, tried when it is first asked for.
    trials: OnceCell<Trials>,
}

impl Model {
    pub fn of(bytes: &[u8]) -> Model {
        let job = match block::check(bytes) {
            0 => Ok(Job::of(bytes)),
            number => Err(number),
        };
        Model { job }
    }

    /// The refusal number of the block, or 0.
    pub fn number(&self) -> u8 {
        self.job().err().unwrap_or(0)
    }

    /// None if the block is refused or the row is absent or not strategic.
    pub fn row(&self, row: u8) -> Option<&Row> {
        self.job().ok()?.row(row.into())
    }

    /// The strategic rows.
    pub fn rows(&self) -> Vec<u8> {
        let strategic = |job: &Job| {
            let rows = (0..job.rows.len()).filter(|&row| job.is_strategic(row));
            rows.map(|row| row as u8).collect()
        };
        self.job().map_or(Vec::new(), strategic)
    }

    /// Every position of a strategic row, in order.
    pub fn positions(&self, row: u8) -> Vec<At> {
        let states = self.job().map_or(0, |job| job.structure.states as u8);
        let [first, second] = self.row(row).expect("a strategic row").largest;
        let at = move |state, stock| At { row, state, stock };
        let of = |state| (0..=first).map(move |stock| (state, stock));
        let pairs = (0..states).flat_map(of);
        let all = pairs.flat_map(|(state, stock)| (0..=second).map(move |s| (state, [stock, s])));
        all.map(|(state, stock)| at(state, stock)).collect()
    }

    fn job(&self) -> Result<&Job, u8> {
        self.job.as_ref().map_err(|&number| number)
    }

    /// The strategic row, or the refusal number.
    fn strategic(&self, row: u8) -> Result<&Row, u8> {
        let found = self.job()?.row(row.into());
        found.ok_or(refusal::ROW_CHOICE)
    }

    /// Clears the room, or refuses its length or the block's.
    fn clear(&self, room: &mut [u8]) -> Result<(), u8> {
        if room.len() != ROOM_BYTES || self.number() == refusal::LENGTH {
            return Err(refusal::LENGTH);
        }
        room.fill(0);
        Ok(())
    }
}

/// The calls on a whole row, or on all. A refusal leaves the sets, ranks, moves and
/// list as they were; the room holds zeros afterwards, unless a length is wrong.
impl Model {
    /// The labelling call.
    pub fn label(&self, sets: &mut [u8], room: &mut [u8]) -> i32 {
        let found = self.sets(sets.len(), room).map(|found| {
            store(sets, found.iter().flat_map(|set| set.to_le_bytes()));
            0
        });
        answer(found)
    }

    /// The table call.
    pub fn table(&self, row: u8, ranks: &mut [u8], moves: &mut [u8]) -> i32 {
        if ranks.len() != RANKS_BYTES || moves.len() != MOVES_BYTES {
            return answer(Err(refusal::LENGTH));
        }
        let found = self.strategic(row).map(|Row { table, .. }| {
            let words = table.ranks.iter().flat_map(|rank| rank.to_le_bytes());
            store(ranks, words);
            store(moves, table.moves.iter().copied());
            0
        });
        answer(found)
    }

    /// The lister of a row's states.
    pub fn states(&self, row: u8, list: &mut [u8], room: &mut [u8]) -> i32 {
        let found = self.set(row, list.len(), room).map(|set| {
            let states = (0..MAX_STATES).filter(|&state| contains(set, state));
            store(list, states.map(|state| state as u8));
            set.count_ones() as u8
        });
        answer(found)
    }

    /// The lister's second call: its refusal, or 0.
    pub fn states_refusal(&self, row: u8, list: &[u8], room: &mut [u8]) -> i32 {
        answer(self.set(row, list.len(), room).map(|_| 0))
    }

    /// The sets for a buffer of this length, or the refusal number.
    fn sets(&self, length: usize, room: &mut [u8]) -> Result<&[Set], u8> {
        if length != SETS_BYTES {
            return Err(refusal::LENGTH);
        }
        self.clear(room)?;
        Ok(&self.job()?.sets)
    }

    /// The row's set for a list of this length, or the refusal number.
    fn set(&self, row: u8, list: usize, room: &mut [u8]) -> Result<Set, u8> {
        if list != STATES_BYTES {
            return Err(refusal::LENGTH);
        }
        self.clear(room)?;
        let set = self.job()?.sets.get(usize::from(row));
        set.copied().ok_or(refusal::ROW_CHOICE)
    }
}

/// The calls at positions. The room holds zeros afterwards, unless a length is
/// wrong.
impl Model {
    /// The coalition's move.
    pub fn coalition_move(&self, at: At, room: &mut [u8]) -> i32 {
        let found = self.clear(room).and_then(|()| self.move_at(at));
        answer(found)
    }

    /// The worksheet (document 02, R-1). A refusal leaves the words as they were.
    pub fn worksheet(&self, row: u8, list: &[u8], words: &mut [u8], room: &mut [u8]) -> i32 {
        let found = self.sheet(row, list, words.len(), room).map(|found| {
            store(words, found.into_iter().flat_map(u16::to_le_bytes));
            0
        });
        answer(found)
    }

    /// The words for a buffer of this length, or the number that refuses the whole
    /// worksheet.
    fn sheet(&self, row: u8, list: &[u8], length: usize, room: &mut [u8]) -> Result<Vec<u16>, u8> {
        let positions = list.chunks_exact(POSITION_BYTES);
        let whole = list.len() <= SHEET_BYTES && positions.remainder().is_empty();
        if !whole || length != 2 * positions.len() {
            return Err(refusal::LENGTH);
        }
        self.clear(room)?;
        self.strategic(row)?;
        let word = |position: &[u8]| {
            let (state, stock) = (position[0], [position[1], position[2]]);
            match self.move_at(At { row, state, stock }) {
                Ok(mv) => mv.into(),
                Err(number) => WORD_REFUSED + u16::from(number),
            }
        };
        Ok(positions.map(word).collect())
    }

    /// The coalition's move, or the refusal number.
    fn move_at(&self, at: At) -> Result<u8, u8> {
        let (table, position) = self.find(at)?;
        match table.moves[position] {
            NO_MOVE => Err(refusal::WRONG_SIDE),
            mv => Ok(mv),
        }
    }

    /// The reply to a move.
    pub fn reply(&self, at: At, mv: u8, room: &mut [u8]) -> i32 {
        let found = self.clear(room).and_then(|()| self.find(at));
        let found = found.and_then(|(table, position)| {
            if table.wins(position) {
                Err(refusal::WRONG_SIDE)
            } else if !table.affordable(position).contains(&mv) {
                Err(refusal::MOVE)
            } else {
                Ok(table.reply(position, mv))
            }
        });
        answer(found)
    }

    /// The table and the position that are asked for, or the refusal number.
    fn find(&self, at: At) -> Result<(&Table, usize), u8> {
        let (job, row) = (self.job()?, self.strategic(at.row)?);
        let fits = (0..MAX_RESOURCES).all(|j| at.stock[j] <= row.largest[j]);
        if usize::from(at.state) >= job.structure.states || !fits {
            return Err(refusal::POSITION);
        }
        Ok((&row.table, row.position(at)))
    }
}

impl Job {
    /// Of a block that the check lets pass.
    fn of(block: &[u8]) -> Job {
        let structure = Structure::of(block);
        let sets = search::label(&structure);
        Job {
            block: block.to_vec(),
            rows: sets.iter().map(|_| OnceCell::new()).collect(),
            structure,
            sets,
        }
    }

    fn is_strategic(&self, i: usize) -> bool {
        is_strategic(self.block[row(i, KIND)])
    }

    fn row(&self, i: usize) -> Option<&Row> {
        let solve = || {
            let table = search::table(&self.structure, i, &self.sets)?;
            Some(Row {
                table,
                game: Game::over(&self.structure, i, &self.sets),
                largest: largest_stocks(&self.block, i),
                trials: OnceCell::new(),
            })
        };
        self.rows.get(i)?.get_or_init(solve).as_ref()
    }
}

impl Row {
    /// The number of a position of the row.
    pub fn position(&self, at: At) -> usize {
        let stock = at.stock.map(usize::from);
        self.table.position(at.state.into(), &stock)
    }
}

fn largest_stocks(block: &[u8], i: usize) -> [u8; MAX_RESOURCES] {
    let resources = Sizes::of(block).resources;
    std::array::from_fn(|j| match block[row(i, BOUND + j)] {
        bound if j < resources && bound != UNLIMITED => bound,
        _ => 0,
    })
}

/// The bytes, and zeros after them.
fn store(buffer: &mut [u8], bytes: impl Iterator<Item = u8>) {
    let bytes: Vec<u8> = bytes.collect();
    buffer.fill(0);
    buffer[..bytes.len()].copy_from_slice(&bytes);
}

fn answer(found: Result<u8, u8>) -> i32 {
    match found {
        Ok(number) => number.into(),
        Err(number) => -i32::from(number),
    }
}
