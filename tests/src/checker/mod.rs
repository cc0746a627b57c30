//! A checker made from document 003: which states satisfy each row, by the
//! algorithm of its section 4 (`splits`) where nothing is charged, by rounds over all
//! positions (`rounds`), by a search on positions that also finds ranks, moves and
//! replies (`search`), and by trying strategies outright (`brute`, `verdict`). They
//! share the decoded job and its aims (`aim`) and nothing else. Smallest allowances
//! (`allowances`) are found by the search, bound by bound.

pub mod aim;
pub mod allowances;
pub mod brute;
pub mod rounds;
pub mod search;
pub mod splits;
pub mod structure;
pub mod verdict;

/// The rank where the row is never enforced, or left never made false.
pub const NEVER: u16 = u16::MAX;
/// The move where the coalition does not win.
pub const NO_MOVE: u8 = u8::MAX;
