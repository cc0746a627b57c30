//! The calls of include/rbatl.h, each with a safe wrapper.

mod lookup;

extern "C" {
    fn rbatl_check(block: *const u8, block_len: usize) -> i32;
    fn rbatl_read(text: *const u8, text_len: usize, block: *mut u8, block_len: usize) -> i32;
    fn rbatl_read_at(text: *const u8, text_len: usize) -> i32;
    fn rbatl_write(block: *const u8, block_len: usize, text: *mut u8, text_len: usize) -> i32;
    fn rbatl_list(
        text: *const u8,
        text_len: usize,
        listing: *mut u8,
        listing_len: usize,
        ranks: *mut u8,
        ranks_len: usize,
        moves: *mut u8,
        moves_len: usize,
    ) -> i32;
}

/// 0, or minus the refusal number.
pub fn check(block: &[u8]) -> i32 {
    // SAFETY: the pointer is valid for the length beside it; the call writes nothing.
    unsafe { rbatl_check(block.as_ptr(), block.len()) }
}

/// 0, or minus the refusal number.
pub fn read(text: &[u8], block: &mut [u8]) -> i32 {
    // SAFETY: each pointer is valid for the length beside it, and the block,
    // borrowed mutably, overlaps no text.
    unsafe { rbatl_read(text.as_ptr(), text.len(), block.as_mut_ptr(), block.len()) }
}

/// The place of the text where reading stops, or minus the refusal number.
pub fn read_at(text: &[u8]) -> i32 {
    // SAFETY: the pointer is valid for the length beside it; the call writes nothing.
    unsafe { rbatl_read_at(text.as_ptr(), text.len()) }
}

/// The length of the text, or minus the refusal number.
pub fn write(block: &[u8], text: &mut [u8]) -> i32 {
    // SAFETY: each pointer is valid for the length beside it, and the text,
    // borrowed mutably, overlaps no block.
    unsafe { rbatl_write(block.as_ptr(), block.len(), text.as_mut_ptr(), text.len()) }
}

/// The length of the listing, or minus the refusal number.
pub fn list(text: &[u8], listing: &mut [u8], ranks: &mut [u8], moves: &mut [u8]) -> i32 {
    // SAFETY: each pointer is valid for the length beside it, and the three
    // buffers, borrowed mutably, overlap nothing.
    unsafe {
        rbatl_list(
            text.as_ptr(),
            text.len(),
            listing.as_mut_ptr(),
            listing.len(),
            ranks.as_mut_ptr(),
            ranks.len(),
            moves.as_mut_ptr(),
            moves.len(),
        )
    }
}

/// The calls on the rows of a job.
mod rows {
    extern "C" {
        fn rbatl_label(
            block: *const u8,
            block_len: usize,
            sets: *mut u8,
            sets_len: usize,
            room: *mut u8,
            room_len: usize,
        ) -> i32;
        fn rbatl_table(
            block: *const u8,
            block_len: usize,
            row: u8,
            ranks: *mut u8,
            ranks_len: usize,
            moves: *mut u8,
            moves_len: usize,
        ) -> i32;
        fn rbatl_states(
            block: *const u8,
            block_len: usize,
            row: u8,
            list: *mut u8,
            list_len: usize,
            room: *mut u8,
            room_len: usize,
        ) -> i32;
        fn rbatl_states_refusal(
            block: *const u8,
            block_len: usize,
            row: u8,
            list: *const u8,
            list_len: usize,
            room: *mut u8,
            room_len: usize,
        ) -> i32;
    }

    /// 0, or minus the refusal number.
    pub fn label(block: &[u8], sets: &mut [u8], room: &mut [u8]) -> i32 {
        // SAFETY: each pointer is valid for the length beside it, and the two
        // buffers, borrowed mutably, overlap nothing.
        unsafe {
            rbatl_label(
                block.as_ptr(),
                block.len(),
                sets.as_mut_ptr(),
                sets.len(),
                room.as_mut_ptr(),
                room.len(),
            )
        }
    }

    /// 0, or minus the refusal number.
    pub fn table(block: &[u8], row: u8, ranks: &mut [u8], moves: &mut [u8]) -> i32 {
        // SAFETY: each pointer is valid for the length beside it, and the two
        // buffers, borrowed mutably, overlap nothing.
        unsafe {
            rbatl_table(
                block.as_ptr(),
                block.len(),
                row,
                ranks.as_mut_ptr(),
                ranks.len(),
                moves.as_mut_ptr(),
                moves.len(),
            )
        }
    }

    /// The count of states, or minus the refusal number.
    pub fn states(block: &[u8], row: u8, list: &mut [u8], room: &mut [u8]) -> i32 {
        // SAFETY: each pointer is valid for the length beside it, and the two
        // buffers, borrowed mutably, overlap nothing.
        unsafe {
            rbatl_states(
                block.as_ptr(),
                block.len(),
                row,
                list.as_mut_ptr(),
                list.len(),
                room.as_mut_ptr(),
                room.len(),
            )
        }
    }

    /// 0, or minus the number of the lister's refusal.
    pub fn states_refusal(block: &[u8], row: u8, list: &[u8], room: &mut [u8]) -> i32 {
        // SAFETY: each pointer is valid for the length beside it, and the room,
        // borrowed mutably, overlaps nothing.
        unsafe {
            rbatl_states_refusal(
                block.as_ptr(),
                block.len(),
                row,
                list.as_ptr(),
                list.len(),
                room.as_mut_ptr(),
                room.len(),
            )
        }
    }
}

pub use lookup::{allowances, coalition_move, rehearse, reply, worksheet};
pub use rows::{label, states, states_refusal, table};
