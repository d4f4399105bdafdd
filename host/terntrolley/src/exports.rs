//! The exported calls as include/terntrolley.h declares them, and their codes.
use crate::Refused;

unsafe extern "C" {
    pub fn terntrolley_feed(
        table: *const u32,
        table_len: usize,
        rows: usize,
        row: usize,
        piece: *const u8,
        piece_len: usize,
        ends: *mut u32,
        ends_len: usize,
        next: *mut usize,
    ) -> u32;

    pub fn terntrolley_validate(table: *const u32, table_len: usize, rows: usize) -> u32;

    pub fn terntrolley_feed_valid(
        table: *const u32,
        table_len: usize,
        rows: usize,
        row: usize,
        piece: *const u8,
        piece_len: usize,
        ends: *mut u32,
        ends_len: usize,
        next: *mut usize,
    ) -> u32;
}

/// What a code says: that the piece was read, or why it wasn't.
pub fn answer(code: u32) -> Result<(), Refused> {
    match code {
        0 => Ok(()),
        1 => Err(Refused::NoTable),
        2 => Err(Refused::Full),
        _ => unreachable!("the library has no code {code}"),
    }
}
