//! The calls at positions: at one, and at those of a worksheet; the smallest
//! allowances for a state, and the rehearsal from one.

use crate::model::At;

extern "C" {
    fn rbatl_move(
        block: *const u8,
        block_len: usize,
        row: u8,
        state: u8,
        stock0: u8,
        stock1: u8,
        room: *mut u8,
        room_len: usize,
    ) -> i32;
    fn rbatl_reply(
        block: *const u8,
        block_len: usize,
        row: u8,
        state: u8,
        stock0: u8,
        stock1: u8,
        mv: u8,
        room: *mut u8,
        room_len: usize,
    ) -> i32;
    fn rbatl_worksheet(
        block: *const u8,
        block_len: usize,
        row: u8,
        list: *const u8,
        list_len: usize,
        words: *mut u8,
        words_len: usize,
        room: *mut u8,
        room_len: usize,
    ) -> i32;
    fn rbatl_allowances(
        block: *const u8,
        block_len: usize,
        row: u8,
        state: u8,
        list: *mut u8,
        list_len: usize,
        room: *mut u8,
        room_len: usize,
    ) -> i32;
    fn rbatl_rehearse(
        block: *const u8,
        block_len: usize,
        row: u8,
        state: u8,
        script: *const u8,
        script_len: usize,
        report: *mut u8,
        report_len: usize,
        room: *mut u8,
        room_len: usize,
    ) -> i32;
}

/// The coalition's move, or minus the refusal number.
pub fn coalition_move(block: &[u8], at: At, room: &mut [u8]) -> i32 {
    // SAFETY: each pointer is valid for the length beside it, and the room,
    // borrowed mutably, overlaps no block.
    unsafe {
        rbatl_move(
            block.as_ptr(),
            block.len(),
            at.row,
            at.state,
            at.stock[0],
            at.stock[1],
            room.as_mut_ptr(),
            room.len(),
        )
    }
}

/// The reply to the move, or minus the refusal number.
pub fn reply(block: &[u8], at: At, mv: u8, room: &mut [u8]) -> i32 {
    // SAFETY: each pointer is valid for the length beside it, and the room,
    // borrowed mutably, overlaps no block.
    unsafe {
        rbatl_reply(
            block.as_ptr(),
            block.len(),
            at.row,
            at.state,
            at.stock[0],
            at.stock[1],
            mv,
            room.as_mut_ptr(),
            room.len(),
        )
    }
}

/// 0, or minus the refusal number.
pub fn worksheet(block: &[u8], row: u8, list: &[u8], words: &mut [u8], room: &mut [u8]) -> i32 {
    // SAFETY: each pointer is valid for the length beside it, and the two
    // buffers, borrowed mutably, overlap nothing.
    unsafe {
        rbatl_worksheet(
            block.as_ptr(),
            block.len(),
            row,
            list.as_ptr(),
            list.len(),
            words.as_mut_ptr(),
            words.len(),
            room.as_mut_ptr(),
            room.len(),
        )
    }
}

/// The count of allowances, or minus the refusal number.
pub fn allowances(block: &[u8], row: u8, state: u8, list: &mut [u8], room: &mut [u8]) -> i32 {
    // SAFETY: each pointer is valid for the length beside it, and the two
    // buffers, borrowed mutably, overlap nothing.
    unsafe {
        rbatl_allowances(
            block.as_ptr(),
            block.len(),
            row,
            state,
            list.as_mut_ptr(),
            list.len(),
            room.as_mut_ptr(),
            room.len(),
        )
    }
}

/// 0, or minus the refusal number.
pub fn rehearse(
    block: &[u8],
    row: u8,
    state: u8,
    script: &[u8],
    report: &mut [u8],
    room: &mut [u8],
) -> i32 {
    // SAFETY: each pointer is valid for the length beside it, and the two
    // buffers, borrowed mutably, overlap nothing.
    unsafe {
        rbatl_rehearse(
            block.as_ptr(),
            block.len(),
            row,
            state,
            script.as_ptr(),
            script.len(),
            report.as_mut_ptr(),
            report.len(),
            room.as_mut_ptr(),
            room.len(),
        )
    }
}
