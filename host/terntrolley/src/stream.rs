//! A text that comes in pieces.
use crate::{Refused, Row, Table};

/// A table and the row of what was read so far.
#[derive(Clone, Copy, Debug)]
pub struct Stream<'a> {
    table: Table<'a>,
    row: Row,
}

impl<'a> Stream<'a> {
    /// A stream that goes on from a row, for a new text row 0.
    pub fn new(table: Table<'a>, row: Row) -> Result<Stream<'a>, Refused> {
        if row.0 >= table.rows() {
            return Err(Refused::NoTable);
        }
        Ok(Stream { table, row })
    }

    /// The row of what was read.
    pub fn row(&self) -> Row {
        self.row
    }

    /// Reads one more piece; the bits after each byte go to the front of `ends`. A refusal leaves the stream where it
    /// was.
    pub fn feed(&mut self, piece: &[u8], ends: &mut [u32]) -> Result<(), Refused> {
        self.row = self.table.feed(self.row, piece, ends)?;
        Ok(())
    }
}
