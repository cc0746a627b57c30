//! A second implementation, made from documents 01, 02 and 003 alone, to compare
//! the library with, and the means to make many jobs and to damage them.

pub mod agree;
pub mod answers;
pub mod block;
pub mod checker;
pub mod damage;
pub mod ffi;
pub mod full;
pub mod games;
pub mod jobs;
pub mod layout;
pub mod listing;
pub mod model;
pub mod play;
pub mod process;
pub mod random;
pub mod text;
pub mod text_damage;

/// Refusal numbers (document 01, "Numbers for what is turned down").
pub mod refusal {
    pub const LENGTH: u8 = 1;
    pub const SIZES: u8 = 2;
    pub const STATE: u8 = 3;
    pub const NEXT: u8 = 4;
    pub const ROW: u8 = 5;
    pub const UNUSED: u8 = 6;
    pub const FORM: u8 = 7;
    pub const ROW_CHOICE: u8 = 8;
    pub const POSITION: u8 = 9;
    pub const WRONG_SIDE: u8 = 10;
    pub const MOVE: u8 = 11;
    pub const REPLY: u8 = 12;
    pub const CHARGE: u8 = 13;
}
